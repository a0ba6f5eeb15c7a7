//! Stores and openings as series of stores of whole blocks, each asked for by its number.

use super::content::{Timing, SIZE};
use super::{held, stands, NAME, NO_BOARD};
use crate::{tfs, Refusal};

/// The stores of a create of the file: its content block, inode, map and directory.
const OF_CREATE: usize = 4;

/// Gives the k-th store of a store: those of the create, if the file is absent, then its content.
///
/// The block comes to the start of the buffer; its number is the answer.
pub fn store_block(
    image: &[u8],
    timing: &Timing,
    k: usize,
    buffer: &mut [u8],
) -> Result<u32, Refusal> {
    let bytes = timing.bytes();
    if stands(image, timing)? {
        return tfs::write_store(image, NAME, 0, &bytes, k, buffer);
    }
    if k <= OF_CREATE {
        return tfs::create_store(image, NAME, SIZE as u32, k, buffer);
    }
    let mut created = image.to_vec();
    tfs::create(&mut created, NAME, SIZE as u32)?;
    tfs::write_store(&created, NAME, 0, &bytes, k - OF_CREATE, buffer)
}

/// Gives the k-th store of an opening, which has one.
///
/// The block comes to the start of the buffer; its number is the answer.
pub fn open_lid_block(image: &[u8], k: usize, buffer: &mut [u8]) -> Result<u32, Refusal> {
    held(image)?;
    tfs::write_store(image, NAME, 0, &NO_BOARD.to_be_bytes(), k, buffer)
}
