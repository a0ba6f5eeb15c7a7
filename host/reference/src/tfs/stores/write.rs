use super::asked;
use crate::tfs::layout::{blocks, BLOCK_SIZE};
use crate::tfs::transfer::Stretch;
use crate::tfs::volume::checked;
use crate::Refusal;

/// Gives the k-th store of a write of some bytes: each content block that they meet, in the file's
/// order.
///
/// The block comes to the start of the buffer; its number is the answer.
pub fn write_store(
    image: &[u8],
    name: &[u8],
    offset: u32,
    bytes: &[u8],
    k: usize,
    buffer: &mut [u8],
) -> Result<u32, Refusal> {
    let stretch = Stretch::plan(checked, image, name, offset, bytes.len())?;
    let (index, block) = asked(k, stretch.transferred().blocks as usize, buffer)?;
    let (start, end) = (stretch.position, stretch.position + stretch.left);
    let met = start / BLOCK_SIZE + index;
    let (from, to) = (start.max(met * BLOCK_SIZE), end.min((met + 1) * BLOCK_SIZE));
    let number = stretch.block(met);
    *block = blocks(image)[number];
    let skipped = from - met * BLOCK_SIZE;
    block[skipped..][..to - from].copy_from_slice(&bytes[from - start..to - start]);
    Ok(number as u32)
}
