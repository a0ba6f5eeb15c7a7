//! The blocks of a volume drawn, one sign for each, as text or as a picture.

mod svg;
mod text;

pub use svg::svg;
pub use text::text;

use super::{Block, Fault, Part, Survey, Tally, FIXED};
use crate::words;

/// How a block is drawn. A fault hides whose block it is; of two faults the first here is drawn.
#[derive(Clone, Copy, Debug, PartialEq, Eq)]
enum Cell {
    Twice,
    Stray,
    Missing,
    /// A block of the volume itself, by its number.
    Fixed(usize),
    /// The inode of the file in a slot.
    Inode(usize),
    /// Content of the file in a slot.
    Content(usize),
    Free,
}

/// The cells that are faults, and those that are neither that nor of a file.
const FAULTS: [Cell; 3] = [Cell::Twice, Cell::Stray, Cell::Missing];
const PLAIN: [Cell; 4] = [Cell::Fixed(0), Cell::Fixed(1), Cell::Fixed(2), Cell::Free];

/// The first rule whose faults are those of blocks, and drawn.
pub const FIRST_OF_BLOCKS: u32 = 6;

impl Cell {
    /// The sign; letters are left to files.
    fn sign(self) -> char {
        let letter = |first: u8, slot: usize| char::from(first + slot as u8);
        match self {
            Self::Twice => '2',
            Self::Stray => '!',
            Self::Missing => '?',
            Self::Fixed(block) => ['#', '%', '/'][block],
            Self::Inode(slot) => letter(b'A', slot),
            Self::Content(slot) => letter(b'a', slot),
            Self::Free => '.',
        }
    }

    /// What the sign stands for.
    fn words(self) -> &'static str {
        match self {
            Self::Twice => "claimed twice or more",
            Self::Stray => "marked used, no file has it",
            Self::Missing => "in use, marked free",
            Self::Fixed(block) => FIXED[block],
            Self::Inode(_) => "inode",
            Self::Content(_) => "content",
            Self::Free => "free",
        }
    }
}

impl Survey {
    /// How each block is drawn.
    fn cells(&self) -> Vec<Cell> {
        let blocks = self.blocks.iter().enumerate();
        blocks.map(|(number, block)| cell(number, block)).collect()
    }

    /// The name in a slot, or why there is none.
    pub fn name_shown(&self, slot: usize) -> String {
        let slot = &self.slots[slot];
        slot.shown().unwrap_or_else(|| {
            let why = match slot.name {
                Some(_) => "(no name)",
                None => "(a name without an end)",
            };
            why.to_string()
        })
    }

    /// The size of the file in a slot, where it can be read.
    pub fn size_shown(&self, slot: usize) -> String {
        let inode = self.slots[slot].inode.as_ref();
        inode.map_or("-".to_string(), |inode| inode.size.to_string())
    }

    /// The volume's name, or why there is none.
    pub fn label_shown(&self) -> String {
        match self.label.as_deref() {
            None if self.blocks.is_empty() => "missing, the image is too short".to_string(),
            None => "without an end".to_string(),
            Some([]) => "none".to_string(),
            Some(label) => words::name(label),
        }
    }

    /// The faults that are at no block, in words.
    fn faults_beside(&self) -> Vec<String> {
        let faults = self.faults().into_iter();
        let beside = faults.filter(|fault| fault.number < FIRST_OF_BLOCKS);
        let told = |fault: Fault| format!("rule {}: {}", fault.number, fault.cause);
        beside.map(told).collect()
    }

    /// The volume's name, and how many blocks it has, has in use and has left.
    fn counts(&self) -> String {
        let volume = match self.label.as_deref() {
            Some([]) => "volume without a name".to_string(),
            Some(label) => format!("volume {}", words::name(label)),
            None => format!("volume name {}", self.label_shown()),
        };
        let Tally { all, used, free } = self.block_tally();
        format!("{volume}: {all} blocks, {used} in use, {free} free")
    }

    /// How many faults there are, and that this is no verdict.
    pub fn note(&self) -> String {
        let count = match self.faults().len() {
            0 => "no fault".to_string(),
            count => words::count(count, "fault"),
        };
        format!("read by this tool from the bytes alone: {count}")
    }
}

fn count(cells: &[Cell], wanted: Cell) -> usize {
    cells.iter().filter(|cell| **cell == wanted).count()
}

/// The faults that are drawn, each with what it is and at how many blocks.
fn drawn_faults(cells: &[Cell]) -> Vec<(Cell, String)> {
    let faults = FAULTS.map(|fault| (fault, count(cells, fault)));
    let drawn = faults.into_iter().filter(|(_, count)| *count > 0);
    let told = |(fault, count): (Cell, usize)| (fault, format!("{}: {count}", fault.words()));
    drawn.map(told).collect()
}

fn cell(number: usize, block: &Block) -> Cell {
    let owned = match block.claims[..] {
        _ if number < FIXED.len() => Some(Cell::Fixed(number)),
        [] => None,
        [claim] => Some(match claim.part {
            Part::Inode => Cell::Inode(claim.slot),
            Part::Content(_) => Cell::Content(claim.slot),
        }),
        _ => return Cell::Twice,
    };
    match (owned, block.marked) {
        (Some(owned), true) => owned,
        (Some(_), false) => Cell::Missing,
        (None, true) => Cell::Stray,
        (None, false) => Cell::Free,
    }
}

#[cfg(test)]
mod tests;
