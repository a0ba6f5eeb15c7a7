//! Create, remove and write as series of stores of whole blocks, each asked for by its number.
//!
//! A store is a block as it is after the whole request, also where that changes nothing in it. The
//! image stays.

mod create;
mod remove;
mod write;

pub use create::create_store;
pub use remove::remove_store;
pub use write::write_store;

use super::layout::Block;
use crate::Refusal;

/// The k-th store of so many, counted from 0, and the room for its block.
fn asked(k: usize, stores: usize, buffer: &mut [u8]) -> Result<(usize, &mut Block), Refusal> {
    let index = k.checked_sub(1).filter(|index| *index < stores);
    index
        .zip(buffer.first_chunk_mut())
        .ok_or(Refusal::plain(32))
}
