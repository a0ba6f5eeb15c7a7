use super::asked;
use crate::tfs::effects::Creation;
use crate::tfs::layout::{blocks, BLOCK_SIZE, DIRECTORY, MAP};
use crate::tfs::volume::checked;
use crate::Refusal;

/// Gives the k-th store of a create: content blocks in the file's order, inode, map, directory.
///
/// The block comes to the start of the buffer; its number is the answer.
pub fn create_store(
    image: &[u8],
    name: &[u8],
    size: u32,
    k: usize,
    buffer: &mut [u8],
) -> Result<u32, Refusal> {
    let creation = Creation::plan(checked, image, name, size)?;
    let content = creation.content();
    let (index, block) = asked(k, content.len() + 3, buffer)?;
    if let Some(&number) = content.get(index) {
        *block = [0; BLOCK_SIZE];
        return Ok(number);
    }
    let blocks = blocks(image);
    Ok(match index - content.len() {
        0 => {
            creation.fill_inode(block);
            creation.inode()
        }
        1 => {
            *block = blocks[MAP];
            creation.set_bits(block);
            MAP as u32
        }
        _ => {
            *block = blocks[DIRECTORY];
            creation.fill_slot(block);
            DIRECTORY as u32
        }
    })
}
