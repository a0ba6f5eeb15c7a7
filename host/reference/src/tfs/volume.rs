//! The check of a volume, and the view of a volume that has passed it.

use super::layout::{
    blocks, blocks_for, content_numbers, file_size, is_data_block, map_words, slots, word, words,
    Block, BlockSet, Name, Slot, DIRECTORY, LARGEST_FILE, MAGIC, MAP, SLOTS,
};
use super::room::ones_below;
use crate::Refusal;

/// Tells whether a volume is consistent, or gives its first fault.
pub fn check(image: &[u8]) -> Result<(), Refusal> {
    checked(image).map(drop)
}

/// Checks an image and keeps its decoded directory.
pub(super) fn checked(image: &[u8]) -> Result<Volume<'_>, Refusal> {
    let Claims { volume, claimed } = claims(image)?;
    check_map(volume.blocks, &claimed)?;
    Ok(volume)
}

/// A volume that breaks no rule but perhaps the one on its map.
pub(super) struct Claims<'a> {
    volume: Volume<'a>,
    /// The blocks whose bits are to be set: those that files claim, and the first three.
    pub(super) claimed: BlockSet,
}

/// Checks all of an image but its map.
#[inline]
pub(super) fn claims(image: &[u8]) -> Result<Claims<'_>, Refusal> {
    let blocks = blocks(image);
    if blocks.len() <= DIRECTORY {
        return Err(Refusal::plain(1));
    }
    check_label(&blocks[0])?;
    let slots = check_directory(blocks)?;
    let claimed = check_claims(blocks, &slots)?;
    let volume = Volume { blocks, slots };
    Ok(Claims { volume, claimed })
}

/// Takes an image that is known to be a consistent volume, and decodes its directory.
pub(super) fn known(image: &[u8]) -> Result<Volume<'_>, Refusal> {
    let blocks = blocks(image);
    let mut decoded = [Slot::Free; SLOTS];
    for (slot, raw) in decoded.iter_mut().zip(slots(&blocks[DIRECTORY])) {
        *slot = Slot::decode(raw, blocks.len()).expect("a slot of a consistent volume");
    }
    Ok(Volume {
        blocks,
        slots: decoded,
    })
}

/// How a request comes by its volume: by the check, or without it where that has been done.
pub(super) type Open = for<'a> fn(&'a [u8]) -> Result<Volume<'a>, Refusal>;

/// A consistent volume.
pub(super) struct Volume<'a> {
    blocks: &'a [Block],
    slots: [Slot; SLOTS],
}

impl<'a> Volume<'a> {
    /// The slot and inode number of a standing name.
    pub(super) fn find(&self, wanted: &Name) -> Option<(usize, u32)> {
        self.slots
            .iter()
            .enumerate()
            .find_map(|(index, slot)| match slot {
                Slot::Used { inode, name } if name == wanted => Some((index, *inode)),
                _ => None,
            })
    }

    /// The slot and inode number of a given name, or the refusal that it meets.
    pub(super) fn lookup(&self, name: &[u8]) -> Result<(usize, u32), Refusal> {
        let name = Name::of_file(name).ok_or(Refusal::plain(8))?;
        self.find(&name).ok_or(Refusal::plain(13))
    }

    /// The block of an inode number that stands in a slot.
    pub(super) fn inode(&self, number: u32) -> &'a Block {
        &self.blocks[number as usize]
    }

    pub(super) fn slot(&self, index: usize) -> Option<Slot> {
        self.slots.get(index).copied()
    }

    /// The bytes of the name in a used slot, up to its zero.
    pub(super) fn name(&self, index: usize) -> &'a [u8] {
        let field = &slots(&self.blocks[DIRECTORY])[index][4..];
        let length = field.iter().position(|&byte| byte == 0);
        &field[..length.unwrap_or(field.len())]
    }

    pub(super) fn free_slot(&self) -> Option<usize> {
        self.slots
            .iter()
            .position(|slot| matches!(slot, Slot::Free))
    }

    /// The numbers of all free blocks in rising order.
    pub(super) fn free_blocks(&self) -> impl Iterator<Item = u32> + 'a {
        (0u32..)
            .step_by(32)
            .zip(map_words(self.blocks))
            .flat_map(|(base, (word, mask))| {
                let mut free = !word & mask;
                std::iter::from_fn(move || {
                    let bit = (free != 0).then(|| free.trailing_zeros())?;
                    free &= free - 1;
                    Some(base + bit)
                })
            })
    }

    /// The number of all free blocks.
    pub(super) fn free_count(&self) -> u32 {
        let count = self.blocks.len();
        count as u32 - ones_below(&self.blocks[MAP], count)
    }
}

/// Rules 2 and 3.
fn check_label(block: &Block) -> Result<(), Refusal> {
    if word(block, 0) != MAGIC {
        return Err(Refusal::plain(2));
    }
    if !block[4..20].contains(&0) {
        return Err(Refusal::plain(3));
    }
    Ok(())
}

/// Rule 4; the first fault met is the lowest, since a repeated name counts for the higher slot.
fn check_directory(blocks: &[Block]) -> Result<[Slot; SLOTS], Refusal> {
    let mut decoded = [Slot::Free; SLOTS];
    for (index, raw) in slots(&blocks[DIRECTORY]).iter().enumerate() {
        let fault = Refusal::at(4, index as u32);
        let slot = Slot::decode(raw, blocks.len()).ok_or(fault)?;
        if let Slot::Used { name, .. } = &slot {
            let repeats = |lower: &Slot| matches!(lower, Slot::Used { name: n, .. } if n == name);
            if decoded[..index].iter().any(repeats) {
                return Err(fault);
            }
        }
        decoded[index] = slot;
    }
    Ok(decoded)
}

/// Rules 5 and 6 in one pass: a block claimed twice is held back until all inodes are sound.
fn check_claims(blocks: &[Block], slots: &[Slot; SLOTS]) -> Result<BlockSet, Refusal> {
    let mut claimed = BlockSet::fixed();
    let mut doubled: Option<u32> = None;
    for (index, slot) in slots.iter().enumerate() {
        let Slot::Used { inode: number, .. } = *slot else {
            continue;
        };
        let inode = &blocks[number as usize];
        if !inode_is_sound(inode, blocks.len()) {
            return Err(Refusal::at(5, index as u32));
        }
        for block in std::iter::once(number).chain(content_numbers(inode)) {
            if !claimed.insert(block) {
                doubled = Some(doubled.map_or(block, |lowest| lowest.min(block)));
            }
        }
    }
    match doubled {
        Some(block) => Err(Refusal::at(6, block)),
        None => Ok(claimed),
    }
}

fn inode_is_sound(inode: &Block, count: usize) -> bool {
    let size = file_size(inode);
    if size > LARGEST_FILE {
        return false;
    }
    let (content, rest) = inode[4..].split_at(4 * blocks_for(size));
    words(content).all(|number| is_data_block(number, count)) && rest.iter().all(|&byte| byte == 0)
}

/// Rule 7.
fn check_map(blocks: &[Block], claimed: &BlockSet) -> Result<(), Refusal> {
    let bases = (0u32..).step_by(32);
    for ((base, (word, mask)), owned) in bases.zip(map_words(blocks)).zip(claimed.words()) {
        let differing = (word ^ owned) & mask;
        if differing != 0 {
            return Err(Refusal::at(7, base + differing.trailing_zeros()));
        }
    }
    Ok(())
}
