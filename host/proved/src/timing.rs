//! The requests on the timing file, as `include/timing.h` has them.

use crate::c::timing as c;
use crate::{told, Refusal};

pub use c::VALUES;

/// The answer of a boot.
#[derive(Clone, Copy, Debug, PartialEq, Eq)]
pub struct Booted {
    /// Granted, or the refusal.
    pub answer: Result<(), Refusal>,
    /// Those of the file where the boot is granted, else zeros.
    pub values: [u16; VALUES],
}

impl c::Answer {
    /// The value, or the refusal.
    fn told(self) -> Result<u32, Refusal> {
        told(self.refusal, self.place, self.value)
    }
}

/// Stores the numbers and the values; the file is created if it is absent.
pub fn store(
    image: &mut [u8],
    board: u32,
    maker: u32,
    values: &[u16; VALUES],
) -> Result<(), Refusal> {
    c::store(image, board, maker, values).told().map(drop)
}

/// Notes that the lid was opened: the board number in the file becomes 0.
pub fn open_lid(image: &mut [u8]) -> Result<(), Refusal> {
    c::open_lid(image).told().map(drop)
}

/// Gives the values that are stored under both numbers.
pub fn boot(image: &[u8], board: u32, maker: u32) -> Booted {
    let booted = c::boot(image, board, maker);
    Booted {
        answer: told(booted.refusal, booted.place, ()),
        values: booted.values,
    }
}

/// Gives the k-th store of a store of values, from 1: the number of its block, whose bytes come to
/// the start of the buffer.
pub fn store_block(
    image: &[u8],
    board: u32,
    maker: u32,
    values: &[u16; VALUES],
    k: usize,
    buffer: &mut [u8],
) -> Result<u32, Refusal> {
    c::store_block(image, board, maker, values, k, buffer).told()
}

/// Gives the k-th store of an opening.
pub fn open_lid_block(image: &[u8], k: usize, buffer: &mut [u8]) -> Result<u32, Refusal> {
    c::open_lid_block(image, k, buffer).told()
}
