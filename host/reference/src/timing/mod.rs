//! The pump's timing file: trained values, with the board and the memory maker that they belong to.
//!
//! It is the file TIMING of a TFS volume, of 64 bytes. Board number 0 in it says that it has no
//! values: the lid was opened, or the file was created and not filled. Every request checks the
//! volume first, and a refused one changes nothing.

mod blocks;
mod content;

pub use blocks::{open_lid_block, store_block};
pub use content::{Timing, SIZE, VALUES};

use crate::{tfs, Refusal};

/// The name of the file.
pub const NAME: &[u8] = b"TIMING";

/// The board number of a file that has no values; no board has it.
const NO_BOARD: u32 = 0;

/// The answer of a boot.
#[derive(Clone, Copy, Debug, PartialEq, Eq)]
pub struct Booted {
    /// Granted, or the refusal.
    pub answer: Result<(), Refusal>,
    /// The values, which are zeros where the boot is refused.
    pub values: [u16; VALUES],
}

/// Makes the file hold these numbers and values; it is created if it is absent.
pub fn store(image: &mut [u8], timing: &Timing) -> Result<(), Refusal> {
    if !stands(image, timing)? {
        tfs::create(image, NAME, SIZE as u32)?;
    }
    tfs::write(image, NAME, 0, &timing.bytes()).map(drop)
}

/// Puts 0 in the place of the board number.
pub fn open_lid(image: &mut [u8]) -> Result<(), Refusal> {
    held(image)?;
    tfs::write(image, NAME, 0, &NO_BOARD.to_be_bytes()).map(drop)
}

/// Gives the values to a pump of this board and this memory maker, if they are theirs.
pub fn boot(image: &[u8], board: u32, maker: u32) -> Booted {
    let (answer, values) = match values_for(image, board, maker) {
        Ok(values) => (Ok(()), values),
        Err(refusal) => (Err(refusal), [0; VALUES]),
    };
    Booted { answer, values }
}

fn values_for(image: &[u8], board: u32, maker: u32) -> Result<[u16; VALUES], Refusal> {
    let timing = held(image)?;
    if timing.board == NO_BOARD {
        return Err(Refusal::plain(34));
    }
    if timing.board != board {
        return Err(Refusal::plain(36));
    }
    if timing.maker != maker {
        return Err(Refusal::plain(37));
    }
    Ok(timing.values)
}

/// What the file holds; 13 if it does not stand, 35 if it has another size.
fn held(image: &[u8]) -> Result<Timing, Refusal> {
    // One byte more than the file has to have, so that a longer one shows.
    let mut room = [0; SIZE + 1];
    let count = tfs::read(image, NAME, 0, &mut room)?.count as usize;
    let bytes = room[..count].try_into();
    bytes.map(Timing::of).map_err(|_| Refusal::plain(35))
}

/// Tells whether the file of a store stands, or gives the refusals of the store but those of the
/// create that an absent file needs.
fn stands(image: &[u8], timing: &Timing) -> Result<bool, Refusal> {
    tfs::check(image)?;
    if timing.board == NO_BOARD {
        return Err(Refusal::plain(34));
    }
    match held(image) {
        Ok(_) => Ok(true),
        Err(Refusal { number: 13, .. }) => Ok(false),
        Err(refusal) => Err(refusal),
    }
}
