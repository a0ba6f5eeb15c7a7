//! Requests about names and room.

use super::effects::{Creation, Removal};
use super::layout::{
    blocks_mut, file_size, set_word, Name, Slot, BLOCK_SIZE, DIRECTORY, MAGIC, MAP, SLOTS,
};
use super::volume::{checked, Open};
use crate::Refusal;

/// What a slot of the directory holds.
#[derive(Clone, Copy, Debug, PartialEq, Eq)]
pub enum Listing<'a> {
    /// The slot holds no file.
    Free,
    /// The slot holds a file.
    Used {
        /// The name up to its zero.
        name: &'a [u8],
        /// The inode number.
        inode: u32,
        /// The size of the file in bytes.
        size: u32,
    },
}

/// Makes an empty volume of an image, whatever it held before.
pub fn format(image: &mut [u8], name: &[u8]) -> Result<(), Refusal> {
    let blocks = blocks_mut(image);
    let Some(front) = blocks.first_chunk_mut::<3>() else {
        return Err(Refusal::plain(1));
    };
    let name = Name::padded(name).ok_or(Refusal::plain(8))?;
    *front = [[0; BLOCK_SIZE]; 3];
    let [label, map, _directory] = front;
    set_word(label, 0, MAGIC);
    label[4..20].copy_from_slice(name.field());
    set_word(map, 0, 0b111);
    Ok(())
}

/// Makes a file of zeros and gives its inode number.
pub fn create(image: &mut [u8], name: &[u8], size: u32) -> Result<u32, Refusal> {
    create_in(checked, image, name, size)
}

#[inline]
pub(super) fn create_in(
    open: Open,
    image: &mut [u8],
    name: &[u8],
    size: u32,
) -> Result<u32, Refusal> {
    let creation = Creation::plan(open, image, name, size)?;
    let blocks = blocks_mut(image);
    for &number in creation.content() {
        blocks[number as usize].fill(0);
    }
    creation.fill_inode(&mut blocks[creation.inode() as usize]);
    creation.set_bits(&mut blocks[MAP]);
    creation.fill_slot(&mut blocks[DIRECTORY]);
    Ok(creation.inode())
}

/// Takes a file out of the directory and gives its blocks back.
pub fn remove(image: &mut [u8], name: &[u8]) -> Result<(), Refusal> {
    remove_in(checked, image, name)
}

#[inline]
pub(super) fn remove_in(open: Open, image: &mut [u8], name: &[u8]) -> Result<(), Refusal> {
    let removal = Removal::plan(open, image, name)?;
    let blocks = blocks_mut(image);
    removal.clear_bits(&mut blocks[MAP]);
    removal.clear_slot(&mut blocks[DIRECTORY]);
    Ok(())
}

/// Tells what a slot holds.
pub fn list(image: &[u8], slot: u32) -> Result<Listing<'_>, Refusal> {
    let volume = checked(image)?;
    let index = usize::try_from(slot).unwrap_or(SLOTS);
    Ok(match volume.slot(index).ok_or(Refusal::plain(14))? {
        Slot::Free => Listing::Free,
        Slot::Used { inode, .. } => Listing::Used {
            name: volume.name(index),
            inode,
            size: file_size(volume.inode(inode)),
        },
    })
}

/// Gives the number of bytes in free blocks.
pub fn free_bytes(image: &[u8]) -> Result<u32, Refusal> {
    free_bytes_in(checked, image)
}

#[inline]
pub(super) fn free_bytes_in(open: Open, image: &[u8]) -> Result<u32, Refusal> {
    Ok(BLOCK_SIZE as u32 * open(image)?.free_count())
}
