//! A volume as this tool reads it from the bytes alone, sound or damaged. The verdict on it is that
//! of the proved library; this reading finds all faults, and the words for one.

mod cause;
mod faults;
pub mod map;
mod read;
mod tally;

pub use cause::{cause, Asked};
pub use faults::Fault;
pub use read::volume;
pub use tally::Tally;

use crate::stores::BLOCK_SIZE;
use crate::volume::LARGEST_FILE;
use crate::words;

const MOST_BLOCKS: usize = 4096;
const MAGIC: u32 = 3745;
const SLOTS: usize = crate::volume::SLOTS as usize;

/// The blocks before those of files, by what they hold.
const FIXED: [&str; 3] = ["header", "map", "directory"];

/// What the bytes of an image say.
#[derive(Debug)]
pub struct Survey {
    /// The number of bytes.
    pub length: usize,
    /// The number at the start, 3745 where it is right.
    pub magic: u32,
    /// The volume's name; none where it has no end.
    pub label: Option<Vec<u8>>,
    /// The 25 slots; none where the image is too short for a volume.
    pub slots: Vec<Slot>,
    /// The blocks of the volume; none where the image is too short for one.
    pub blocks: Vec<Block>,
}

/// A slot of the directory.
#[derive(Debug)]
pub struct Slot {
    /// The inode number.
    pub number: u32,
    /// The name up to its zero; none where it has no end.
    pub name: Option<Vec<u8>>,
    /// The lowest slot below that has the same name.
    pub repeats: Option<usize>,
    /// What stands at the inode number, where that is a block that a file may have.
    pub inode: Option<Inode>,
}

/// What a slot is.
#[derive(Clone, Copy, Debug, PartialEq, Eq)]
pub enum State {
    Free,
    Used,
    Neither,
}

/// The size and the 127 block numbers of a file.
#[derive(Debug)]
pub struct Inode {
    pub size: u32,
    pub numbers: Vec<u32>,
}

/// A block: the files that claim it, and whether the map marks it as used.
#[derive(Debug, Default)]
pub struct Block {
    pub claims: Vec<Claim>,
    pub marked: bool,
}

/// A claim of the file in a slot.
#[derive(Clone, Copy, Debug, PartialEq, Eq)]
pub struct Claim {
    pub slot: usize,
    pub part: Part,
}

/// What a block is to a file; content counts from 0.
#[derive(Clone, Copy, Debug, PartialEq, Eq)]
pub enum Part {
    Inode,
    Content(usize),
}

impl Survey {
    /// Whether a number is that of a block which a file may have.
    fn may_be_claimed(&self, number: u32) -> bool {
        (FIXED.len()..self.blocks.len()).contains(&(number as usize))
    }

    /// The blocks that a slot claims, whatever its name is. A number out of range leads to none, a
    /// size that is too large to no content.
    fn claims(&self, slot: usize) -> impl Iterator<Item = (usize, Part)> + '_ {
        let Slot { number, inode, .. } = &self.slots[slot];
        let content = inode.iter().flat_map(|inode| inode.content());
        let content = content.enumerate();
        let content = content.map(|(index, block)| (*block, Part::Content(index)));
        let claims = std::iter::once((*number, Part::Inode)).chain(content);
        let allowed = claims.filter(|(block, _)| self.may_be_claimed(*block));
        allowed.map(|(block, part)| (block as usize, part))
    }

    /// A slot with the name in it.
    fn named(&self, slot: usize) -> String {
        match self.slots[slot].shown() {
            Some(name) => format!("slot {slot} ({name})"),
            None => format!("slot {slot}"),
        }
    }
}

impl Slot {
    /// Whether the slot is free, used or neither.
    pub fn state(&self) -> State {
        match &self.name {
            Some(name) if name.is_empty() && self.number == 0 => State::Free,
            Some(name) if !name.is_empty() && self.inode.is_some() => State::Used,
            _ => State::Neither,
        }
    }

    /// The name on one line, where there is one.
    pub fn shown(&self) -> Option<String> {
        let name = self.name.as_ref().filter(|name| !name.is_empty());
        name.map(|name| words::name(name))
    }
}

impl Inode {
    /// The numbers of the content blocks; a size that is too large tells none.
    pub fn content(&self) -> &[u32] {
        match self.size {
            0..=LARGEST_FILE => &self.numbers[..blocks_for(self.size)],
            _ => &[],
        }
    }
}

impl Part {
    fn words(self) -> String {
        match self {
            Self::Inode => "inode".to_string(),
            Self::Content(index) => format!("content {index}"),
        }
    }
}

/// The number of content blocks of a file.
fn blocks_for(size: u32) -> usize {
    size.div_ceil(BLOCK_SIZE as u32) as usize
}

#[cfg(test)]
mod tests;
