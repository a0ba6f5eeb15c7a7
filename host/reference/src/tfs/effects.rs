//! What granted creates and removes do to the blocks of a volume.

use super::layout::{
    blocks_for, content_numbers, mark, set_word, slots_mut, Block, Name, Slot, BLOCK_SIZE,
    LARGEST_FILE, MOST_CONTENT,
};
use super::volume::Open;
use crate::Refusal;

/// A granted create.
pub(super) struct Creation {
    slot: usize,
    name: Name,
    size: u32,
    /// The inode number, then those of the content blocks in the file's order, then zeros.
    taken: [u32; 1 + MOST_CONTENT],
}

impl Creation {
    #[inline]
    pub(super) fn plan(open: Open, image: &[u8], name: &[u8], size: u32) -> Result<Self, Refusal> {
        let volume = open(image)?;
        let name = Name::of_file(name).ok_or(Refusal::plain(8))?;
        if size > LARGEST_FILE {
            return Err(Refusal::plain(9));
        }
        if volume.find(&name).is_some() {
            return Err(Refusal::plain(10));
        }
        let slot = volume.free_slot().ok_or(Refusal::plain(11))?;
        let needed = 1 + blocks_for(size);
        if (volume.free_count() as usize) < needed {
            return Err(Refusal::plain(12));
        }
        let mut taken = [0; 1 + MOST_CONTENT];
        for (number, free) in taken[..needed].iter_mut().zip(volume.free_blocks()) {
            *number = free;
        }
        Ok(Self {
            slot,
            name,
            size,
            taken,
        })
    }

    /// The inode number.
    pub(super) fn inode(&self) -> u32 {
        self.taken[0]
    }

    /// The numbers of the content blocks in the file's order.
    pub(super) fn content(&self) -> &[u32] {
        &self.taken[1..][..blocks_for(self.size)]
    }

    /// Makes the inode.
    pub(super) fn fill_inode(&self, inode: &mut Block) {
        *inode = [0; BLOCK_SIZE];
        set_word(inode, 0, self.size);
        for (index, &number) in self.content().iter().enumerate() {
            set_word(inode, 1 + index, number);
        }
    }

    /// Sets the bits of the blocks in the map.
    pub(super) fn set_bits(&self, map: &mut Block) {
        let taken = &self.taken[..=self.content().len()];
        taken.iter().for_each(|&number| mark(map, number, true));
    }

    /// Puts the file into its slot of the directory.
    pub(super) fn fill_slot(&self, directory: &mut Block) {
        slots_mut(directory)[self.slot] = Slot::encode(self.inode(), &self.name);
    }
}

/// A granted remove.
pub(super) struct Removal {
    slot: usize,
    number: u32,
    inode: Block,
}

impl Removal {
    #[inline]
    pub(super) fn plan(open: Open, image: &[u8], name: &[u8]) -> Result<Self, Refusal> {
        let volume = open(image)?;
        let (slot, number) = volume.lookup(name)?;
        let inode = *volume.inode(number);
        Ok(Self {
            slot,
            number,
            inode,
        })
    }

    /// Zeros the slot of the file in the directory.
    pub(super) fn clear_slot(&self, directory: &mut Block) {
        slots_mut(directory)[self.slot].fill(0);
    }

    /// Clears the bits of the file's blocks in the map.
    pub(super) fn clear_bits(&self, map: &mut Block) {
        mark(map, self.number, false);
        content_numbers(&self.inode).for_each(|number| mark(map, number, false));
    }
}
