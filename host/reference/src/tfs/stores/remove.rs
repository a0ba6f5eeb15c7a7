use super::asked;
use crate::tfs::effects::Removal;
use crate::tfs::layout::{blocks, DIRECTORY, MAP};
use crate::tfs::volume::checked;
use crate::Refusal;

/// Gives the k-th store of a remove: directory, map.
///
/// The block comes to the start of the buffer; its number is the answer.
pub fn remove_store(
    image: &[u8],
    name: &[u8],
    k: usize,
    buffer: &mut [u8],
) -> Result<u32, Refusal> {
    let removal = Removal::plan(checked, image, name)?;
    let (index, block) = asked(k, 2, buffer)?;
    let number = [DIRECTORY, MAP][index];
    *block = blocks(image)[number];
    match number {
        DIRECTORY => removal.clear_slot(block),
        _ => removal.clear_bits(block),
    }
    Ok(number as u32)
}
