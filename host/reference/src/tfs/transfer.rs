//! Requests that move content.

use std::ops::Range;

use super::layout::{file_size, word, Block, BLOCK_SIZE};
use super::volume::{checked, Open};
use crate::Refusal;

/// What a granted read or write has moved.
#[derive(Clone, Copy, Debug, PartialEq, Eq)]
pub struct Transferred {
    /// The count of bytes.
    pub count: u32,
    /// How many distinct content blocks of the file hold these bytes.
    pub blocks: u32,
}

/// How many blocks a range of so many bytes meets, from an offset on. The range ends below 2^32.
pub const fn blocks_met(offset: u32, count: u32, block_size: u32) -> u32 {
    if count == 0 {
        return 0;
    }
    let (first, last) = (offset, offset + (count - 1));
    last / block_size - first / block_size + 1
}

/// Copies content of a file from an offset on into a buffer.
pub fn read(
    image: &[u8],
    name: &[u8],
    offset: u32,
    buffer: &mut [u8],
) -> Result<Transferred, Refusal> {
    let stretch = Stretch::plan(checked, image, name, offset, buffer.len())?;
    let moved = stretch.transferred();
    let mut target = &mut buffer[..stretch.left];
    for run in stretch {
        let (part, rest) = target.split_at_mut(run.len());
        part.copy_from_slice(&image[run]);
        target = rest;
    }
    Ok(moved)
}

/// Copies a buffer over the content of a file from an offset on.
pub fn write(
    image: &mut [u8],
    name: &[u8],
    offset: u32,
    buffer: &[u8],
) -> Result<Transferred, Refusal> {
    write_in(checked, image, name, offset, buffer)
}

#[inline]
pub(super) fn write_in(
    open: Open,
    image: &mut [u8],
    name: &[u8],
    offset: u32,
    buffer: &[u8],
) -> Result<Transferred, Refusal> {
    let stretch = Stretch::plan(open, image, name, offset, buffer.len())?;
    let moved = stretch.transferred();
    let mut source = &buffer[..stretch.left];
    for run in stretch {
        let (part, rest) = source.split_at(run.len());
        image[run].copy_from_slice(part);
        source = rest;
    }
    Ok(moved)
}

/// Tells whether a read into a buffer of some length would give exactly these bytes.
pub(super) fn reads_in(
    open: Open,
    image: &[u8],
    name: &[u8],
    offset: u32,
    length: u32,
    bytes: &[u8],
) -> Result<bool, Refusal> {
    let stretch = Stretch::plan(open, image, name, offset, length as usize)?;
    if stretch.left != bytes.len() {
        return Ok(false);
    }
    let mut rest = bytes;
    for run in stretch {
        let (part, behind) = rest.split_at(run.len());
        if part != &image[run] {
            return Ok(false);
        }
        rest = behind;
    }
    Ok(true)
}

/// A stretch of a file, given as the parts of the image that hold it, neighbouring blocks joined.
pub(super) struct Stretch {
    inode: Block,
    /// Where in the file it begins.
    pub(super) position: usize,
    /// How many bytes it has.
    pub(super) left: usize,
}

impl Stretch {
    #[inline]
    pub(super) fn plan(
        open: Open,
        image: &[u8],
        name: &[u8],
        offset: u32,
        room: usize,
    ) -> Result<Self, Refusal> {
        let volume = open(image)?;
        let (_, number) = volume.lookup(name)?;
        let inode = volume.inode(number);
        let behind = file_size(inode)
            .checked_sub(offset)
            .ok_or(Refusal::plain(15))?;
        Ok(Self {
            inode: *inode,
            position: offset as usize,
            left: room.min(behind as usize),
        })
    }

    /// The count, and the blocks met. A sound inode lists no block twice, so that the blocks that
    /// are met in the file's order are distinct.
    pub(super) fn transferred(&self) -> Transferred {
        let count = self.left as u32;
        Transferred {
            count,
            blocks: blocks_met(self.position as u32, count, BLOCK_SIZE as u32),
        }
    }

    /// The number of the content block at a place of the file's order, from 0.
    pub(super) fn block(&self, index: usize) -> usize {
        word(&self.inode, 1 + index) as usize
    }
}

impl Iterator for Stretch {
    type Item = Range<usize>;

    fn next(&mut self) -> Option<Self::Item> {
        if self.left == 0 {
            return None;
        }
        let index = self.position / BLOCK_SIZE;
        let skipped = self.position % BLOCK_SIZE;
        let first = self.block(index);
        let mut joined = 1;
        while joined * BLOCK_SIZE - skipped < self.left
            && self.block(index + joined) == first + joined
        {
            joined += 1;
        }
        let length = self.left.min(joined * BLOCK_SIZE - skipped);
        let start = first * BLOCK_SIZE + skipped;
        self.position += length;
        self.left -= length;
        Some(start..start + length)
    }
}
