//! Traces of requests, as `include/tfs_trace.h` has them.

use crate::c::trace as c;
use crate::{told, Refusal};

pub use c::Entry;

/// The kinds of requests that a trace can hold.
#[allow(missing_docs)]
pub mod kind {
    pub const CREATE: u64 = 1;
    pub const REMOVE: u64 = 2;
    pub const READ: u64 = 3;
    pub const WRITE: u64 = 4;
    pub const FREE_BYTES: u64 = 5;
}

/// A record with its name and its bytes, which are empty where it has none.
#[derive(Clone, Copy, Debug, Default, PartialEq, Eq)]
pub struct Record<'a> {
    /// The kind and the numbers.
    pub entry: Entry,
    /// The name.
    pub name: &'a [u8],
    /// What a write writes, or what a granted read gave.
    pub bytes: &'a [u8],
}

/// How a replay ended.
#[derive(Clone, Copy, Debug, PartialEq, Eq)]
pub enum Replayed {
    /// So many records were replayed, all there are.
    All(u64),
    /// The record of this number, from 1, is malformed.
    Malformed(u64),
    /// The record of this number, from 1, had another answer.
    Differs(u64),
}

/// Reads the record at a position and gives it with the position of the next one.
pub fn read(trace: &[u8], at: usize) -> Option<(Record<'_>, usize)> {
    let read = c::read(trace, at);
    if read.entry.kind == 0 {
        return None;
    }
    let part = |at: u64, length: u64| &trace[at as usize..][..length as usize];
    let record = Record {
        entry: read.entry,
        name: part(read.name_at, read.name_length),
        bytes: part(read.bytes_at, read.bytes_length),
    };
    Some((record, read.next as usize))
}

/// Writes a record to the start of a buffer; its length.
pub fn write(out: &mut [u8], record: &Record<'_>) -> Result<usize, Refusal> {
    let written = c::write(out, record.entry, record.name, record.bytes);
    told(written.refusal as u32, 0, written.length as usize)
}

/// Replays a trace on a volume.
pub fn replay(image: &mut [u8], trace: &[u8]) -> Result<Replayed, Refusal> {
    let answer = c::replay(image, trace);
    told(answer.refusal as u32, answer.place as u32, ())?;
    Ok(match answer.outcome {
        0 => Replayed::All(answer.number),
        1 => Replayed::Malformed(answer.number),
        _ => Replayed::Differs(answer.number),
    })
}
