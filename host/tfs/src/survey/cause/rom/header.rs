//! Headers of a romfs image and the bounds of their lists.

use crate::words;

const TYPES: [&str; 8] = [
    "hard link",
    "directory",
    "file",
    "symbolic link",
    "block device",
    "character device",
    "socket",
    "pipe",
];
const HARD_LINK: u32 = 0;
const DIRECTORY: u32 = 1;

/// The types whose spec.info is 0, and those with content.
const WITHOUT_INFO: [u32; 4] = [2, 3, 6, 7];
const WITH_CONTENT: [u32; 2] = [2, 3];

/// An image cut at its full size, and its first header or 0.
pub struct Rom<'a> {
    pub image: &'a [u8],
    pub root: u32,
}

impl<'a> Rom<'a> {
    pub fn read(image: &'a [u8]) -> Option<Self> {
        let image = image.get(..word(image, 8)? as usize)?;
        let root = 16 + padded(zero_ended(image, 16)?);
        let root = if root < image.len() { root as u32 } else { 0 };
        Some(Self { image, root })
    }

    /// The bound of the list that a header stands in, where the walk comes to it: the lists of
    /// entries lie between them and their next, so one way leads there.
    pub fn bound(&self, target: u32) -> Option<u32> {
        let (mut at, mut bound) = (self.root, self.image.len() as u32);
        while at < target {
            let header = Header::read(self.image, at, bound)?;
            let step = if header.next != 0 && header.next <= target {
                header.next
            } else {
                bound = header.own_bound(bound);
                header.first()
            };
            at = Some(step).filter(|step| *step > at)?;
        }
        (at == target).then_some(bound)
    }

    /// The header at an offset, where the walk comes to it.
    pub fn reached(&self, at: u32) -> Option<Header<'a>> {
        Header::read(self.image, at, self.bound(at)?)
    }

    /// The headers of a list from its first on; it ends where the next one does not lie behind.
    pub fn list(&self, first: u32) -> impl Iterator<Item = Header<'a>> {
        let image = self.image;
        let follow = move |at: u32| Header::read(image, at, image.len() as u32);
        let first = Some(first).filter(|first| *first != 0).and_then(follow);
        let next =
            move |header: &Header<'_>| follow(header.next).filter(|next| next.at > header.at);
        std::iter::successors(first, next)
    }
}

/// A header that ends below its bound.
pub struct Header<'a> {
    at: u32,
    kind: u32,
    pub info: u32,
    size: u32,
    next: u32,
    pub name: &'a [u8],
    data: usize,
    end: u64,
}

impl<'a> Header<'a> {
    pub fn read(image: &'a [u8], at: u32, bound: u32) -> Option<Self> {
        let part = image.get(at as usize..bound as usize)?;
        let (first, size) = (word(part, 0)?, word(part, 8)?);
        let name = zero_ended(part, 16)?;
        let data = at as usize + 16 + padded(name);
        let end = data as u64 + u64::from(size).next_multiple_of(16);
        let header = Self {
            at,
            kind: first % 8,
            info: word(part, 4)?,
            size,
            next: first & !15,
            name,
            data,
            end,
        };
        (end <= u64::from(bound)).then_some(header)
    }

    pub fn is_hard_link(&self) -> bool {
        self.kind == HARD_LINK
    }

    pub fn is_directory(&self) -> bool {
        self.kind == DIRECTORY
    }

    pub fn has_content(&self) -> bool {
        WITH_CONTENT.contains(&self.kind)
    }

    /// Whether the header leads to another: a hard link, or a directory named "." or "..".
    pub fn leads(&self) -> bool {
        self.is_hard_link() || self.is_dot()
    }

    fn is_dot(&self) -> bool {
        self.is_directory() && matches!(self.name, b"." | b"..")
    }

    /// The first header of the entry's own list, or 0; "." and ".." have none.
    fn first(&self) -> u32 {
        match self.is_directory() && !self.is_dot() {
            true => self.info,
            false => 0,
        }
    }

    /// The bound of the entry itself, in a list with a bound.
    fn own_bound(&self, bound: u32) -> u32 {
        match self.next {
            0 => bound,
            next => next,
        }
    }

    /// The type, the offset and the name.
    pub fn called(&self) -> String {
        let (kind, name) = (TYPES[self.kind as usize], words::start_of_name(self.name));
        format!("{kind} at {} ({name})", self.at)
    }

    /// What is wrong with the header itself, in the order of the rule.
    pub fn cause(&self, image: &[u8]) -> Option<String> {
        let (kind, info, size) = (TYPES[self.kind as usize], self.info, self.size);
        let sum = sum(&image[self.at as usize..self.data]);
        if self.name.is_empty() {
            Some("an empty name".to_string())
        } else if sum != 0 {
            Some(format!(
                "a wrong checksum: its bytes add up to {sum:#010x}, not 0"
            ))
        } else if info != 0 && WITHOUT_INFO.contains(&self.kind) {
            Some(format!("spec.info {info}, which is 0 for a {kind}"))
        } else if size != 0 && !self.has_content() {
            Some(format!("size {size}, which is 0 for a {kind}"))
        } else {
            None
        }
    }

    /// How the next header breaks the nesting in a list with a bound.
    pub fn next_cause(&self, bound: u32) -> Option<String> {
        let wrong = self.misplaced(self.next, bound)?;
        Some(format!("has its next header at {}, {wrong}", self.next))
    }

    /// How the first header of the entry's own list breaks the nesting.
    pub fn first_cause(&self, bound: u32) -> Option<String> {
        let first = self.first();
        let wrong = match first.is_multiple_of(16) {
            true => self.misplaced(first, self.own_bound(bound))?,
            false => "no multiple of 16".to_string(),
        };
        Some(format!("has its first header at {first}, {wrong}"))
    }

    /// That the entry has a list of its own, which lies too deep.
    pub fn depth_cause(&self) -> Option<String> {
        let has_list = self.first() != 0;
        has_list.then(|| "has a list at depth 9, at most 8 are allowed".to_string())
    }

    /// Why no header may lie at an offset; at 0 there is none.
    fn misplaced(&self, at: u32, bound: u32) -> Option<String> {
        let end = self.end;
        if at == 0 {
            None
        } else if u64::from(at) < end {
            Some(format!("before its own end at {end}"))
        } else {
            (at >= bound).then(|| format!("not before {bound}, where its room ends"))
        }
    }
}

/// The sum of big-endian words.
pub fn sum(bytes: &[u8]) -> u32 {
    let words = bytes.as_chunks().0.iter();
    words.fold(0, |sum, word| sum.wrapping_add(u32::from_be_bytes(*word)))
}

pub fn word(bytes: &[u8], at: usize) -> Option<u32> {
    let word = bytes.get(at..)?.first_chunk()?;
    Some(u32::from_be_bytes(*word))
}

pub fn zero_ended(bytes: &[u8], at: usize) -> Option<&[u8]> {
    let bytes = bytes.get(at..)?;
    let length = bytes.iter().position(|&byte| byte == 0)?;
    Some(&bytes[..length])
}

/// The length of a name with its zero and its padding.
fn padded(name: &[u8]) -> usize {
    (name.len() + 1).next_multiple_of(16)
}
