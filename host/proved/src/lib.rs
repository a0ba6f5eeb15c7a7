//! The proved requests, called through their C interface (`include/tfs.h`, `include/tfs_trace.h`,
//! `include/timing.h`, `include/romfs.h`).
//!
//! Rust's borrows give what the headers ask of a caller: valid pointers, and no overlap.

#![warn(missing_docs)]

pub mod c;
pub mod romfs;
pub mod tfs;
pub mod timing;
pub mod trace;

/// A refused request: the number of the refusal and its place.
#[derive(Clone, Copy, Debug, PartialEq, Eq)]
pub struct Refusal {
    /// The number, as the headers name it.
    pub number: u32,
    /// The slot, block or header at fault, or 0.
    pub place: u32,
}

/// What an answer grants, or the refusal that it has the number and the place of.
fn told<T>(number: u32, place: u32, granted: T) -> Result<T, Refusal> {
    match number {
        0 => Ok(granted),
        _ => Err(Refusal { number, place }),
    }
}
