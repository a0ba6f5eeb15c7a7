//! The two checks and the mend once more, literal and slow, to compare the quick ones with.

#![allow(dead_code)]

use std::collections::{BTreeMap, HashMap};

pub type Fault = Option<(u32, u32)>;

fn number(bytes: &[u8], at: usize) -> usize {
    bytes[at..at + 4]
        .iter()
        .fold(0, |value, &byte| value * 256 + usize::from(byte))
}

/// The first fault of a TFS volume, rule by rule.
pub fn tfs_fault(image: &[u8]) -> Fault {
    let n = (image.len() / 512).min(4096);
    if image.len() < 1536 {
        return Some((1, 0));
    }
    if number(image, 0) != 3745 {
        return Some((2, 0));
    }
    if (4..20).all(|at| image[at] != 0) {
        return Some((3, 0));
    }
    slot_fault(image, n)
        .or_else(|| inode_fault(image, n))
        .or_else(|| claim_fault(image))
        .or_else(|| map_fault(image, n))
}

fn slot(image: &[u8], s: usize) -> &[u8] {
    &image[1024 + 20 * s..1044 + 20 * s]
}

fn is_free(slot: &[u8]) -> bool {
    number(slot, 0) == 0 && slot[4] == 0
}

fn is_used(slot: &[u8], n: usize) -> bool {
    (3..n).contains(&number(slot, 0)) && slot[4] != 0 && (4..20).any(|at| slot[at] == 0)
}

/// Whether two names are the same up to and with a zero at the same place.
fn same_name(one: &[u8], other: &[u8]) -> bool {
    (0..16).any(|zero| (one[zero], other[zero]) == (0, 0) && one[..zero] == other[..zero])
}

/// Rule 4: each slot is free or used, and no name stands twice.
fn slot_fault(image: &[u8], n: usize) -> Fault {
    let name = |s: usize| &slot(image, s)[4..];
    for s in 0..25 {
        let free = is_free(slot(image, s));
        let used = is_used(slot(image, s), n);
        if !free && (!used || (0..s).any(|lower| same_name(name(lower), name(s)))) {
            return Some((4, s as u32));
        }
    }
    None
}

fn used_slots(image: &[u8]) -> Vec<usize> {
    (0..25).filter(|&s| !is_free(slot(image, s))).collect()
}

/// The size and all block numbers in the inode of a slot.
fn inode(image: &[u8], s: usize) -> (usize, Vec<usize>) {
    let at = 512 * number(slot(image, s), 0);
    let numbers = (0..127).map(|i| number(image, at + 4 + 4 * i)).collect();
    (number(image, at), numbers)
}

/// Rule 5: an inode's size is allowed, its block numbers are of the volume, the rest zero.
fn inode_fault(image: &[u8], n: usize) -> Fault {
    for s in used_slots(image) {
        let (size, numbers) = inode(image, s);
        let count = size.div_ceil(512);
        let outside = |(i, b): (usize, &usize)| {
            if i < count {
                !(3..n).contains(b)
            } else {
                *b != 0
            }
        };
        if size > 65_024 || numbers.iter().enumerate().any(outside) {
            return Some((5, s as u32));
        }
    }
    None
}

/// How often each block is claimed, as an inode or by one.
fn claims(image: &[u8]) -> BTreeMap<usize, u32> {
    let mut claims = BTreeMap::new();
    for s in used_slots(image) {
        let (size, numbers) = inode(image, s);
        *claims.entry(number(slot(image, s), 0)).or_default() += 1;
        for &b in &numbers[..size.div_ceil(512)] {
            *claims.entry(b).or_default() += 1;
        }
    }
    claims
}

/// Rule 6: no block is claimed twice.
fn claim_fault(image: &[u8]) -> Fault {
    let claims = claims(image);
    let twice = claims.iter().find(|(_, &count)| count > 1);
    twice.map(|(&b, _)| (6, b as u32))
}

/// Rule 7: the map has the bits of the first three blocks and of the claimed ones.
fn map_fault(image: &[u8], n: usize) -> Fault {
    let claims = claims(image);
    for b in 0..n {
        let bit = number(image, 512 + 4 * (b / 32)) >> (b % 32) & 1 == 1;
        if bit != (b < 3 || claims.contains_key(&b)) {
            return Some((7, b as u32));
        }
    }
    None
}

/// The image with every set bit from block 3 on that nobody claims cleared, or the fault that it
/// then still has.
pub fn tfs_mend(image: &[u8]) -> Result<Vec<u8>, (u32, u32)> {
    if let Some(fault) = tfs_fault(image).filter(|fault| fault.0 < 7) {
        return Err(fault);
    }
    let claims = claims(image);
    let mut cleared = image.to_vec();
    for b in 3..(image.len() / 512).min(4096) {
        if !claims.contains_key(&b) {
            cleared[512 + 4 * (b / 32) + 3 - b % 32 / 8] &= !(1 << (b % 8));
        }
    }
    match tfs_fault(&cleared) {
        Some(fault) => Err(fault),
        None => Ok(cleared),
    }
}

fn words_sum(image: &[u8], from: usize, to: usize) -> usize {
    (from..to)
        .step_by(4)
        .map(|at| number(image, at))
        .sum::<usize>()
        % (1 << 32)
}

fn pad(length: usize) -> usize {
    length.div_ceil(16) * 16
}

/// The first fault of a romfs image, by a walk that calls itself.
pub fn romfs_fault(image: &[u8]) -> Fault {
    if image.len() < 32 {
        return Some((21, 0));
    }
    if image[..8] != *b"-rom1fs-" {
        return Some((22, 0));
    }
    let f = number(image, 8);
    if f < 32 || f > image.len() || !f.is_multiple_of(16) {
        return Some((23, 0));
    }
    if words_sum(image, 0, f.min(512)) != 0 {
        return Some((24, 0));
    }
    let Some(end) = (16..f).find(|&at| image[at] == 0) else {
        return Some((25, 0));
    };
    let root = pad(end + 1);
    let mut seen = HashMap::new();
    if root != f {
        if let Err(fault) = walk_list(image, root, f, 1, &mut seen) {
            return Some(fault);
        }
    }
    let mut offsets: Vec<usize> = seen.keys().copied().collect();
    offsets.sort();
    for p in offsets {
        let header: &Header = &seen[&p];
        let aim = seen.get(&header.info);
        let link = header.file_type == 0 && aim.is_none_or(|other| other.file_type == 0);
        if link || (header.is_dot() && aim.is_none()) {
            return Some((29, p as u32));
        }
    }
    None
}

/// A header as it stands in the image, with the offset where its content ends, padded.
struct Header<'a> {
    next: usize,
    file_type: usize,
    info: usize,
    name: &'a [u8],
    end: usize,
}

impl Header<'_> {
    fn is_dot(&self) -> bool {
        self.file_type == 1 && (self.name == b"." || self.name == b"..")
    }

    fn descends(&self) -> bool {
        self.file_type == 1 && !self.is_dot() && self.info != 0
    }
}

/// Rule 26: the header at `p`, if it is whole and its fields are allowed.
fn header(image: &[u8], p: usize, bound: usize) -> Option<Header<'_>> {
    if p + 16 > bound {
        return None;
    }
    let name_end = (p + 16..bound).find(|&at| image[at] == 0)?;
    let name = &image[p + 16..name_end];
    let (first_word, info, size) = (number(image, p), number(image, p + 4), number(image, p + 8));
    let data = p + 16 + pad(name.len() + 1);
    let end = data + pad(size);
    let file_type = first_word % 8;
    if end > bound
        || name.is_empty()
        || words_sum(image, p, data) != 0
        || ([2, 3, 6, 7].contains(&file_type) && info != 0)
        || (![2, 3].contains(&file_type) && size != 0)
    {
        return None;
    }
    let next = first_word / 16 * 16;
    Some(Header {
        next,
        file_type,
        info,
        name,
        end,
    })
}

/// Rules 26 to 28 for the list that begins at `p`, and for the lists below it.
fn walk_list<'a>(
    image: &'a [u8],
    p: usize,
    bound: usize,
    depth: usize,
    seen: &mut HashMap<usize, Header<'a>>,
) -> Result<(), (u32, u32)> {
    let fault = |rule| (rule, p as u32);
    let header = header(image, p, bound).ok_or(fault(26))?;
    let Header {
        next, info, end, ..
    } = header;
    let descends = header.descends();
    if next != 0 && (next < end || next >= bound) {
        return Err(fault(27));
    }
    let own = if next == 0 { bound } else { next };
    if descends && (!info.is_multiple_of(16) || info < end || info >= own) {
        return Err(fault(27));
    }
    if descends && depth == 8 {
        return Err(fault(28));
    }
    seen.insert(p, header);
    if descends {
        walk_list(image, info, own, depth + 1, seen)?;
    }
    if next != 0 {
        walk_list(image, next, bound, depth, seen)?;
    }
    Ok(())
}
