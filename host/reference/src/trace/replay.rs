//! A trace made again on a volume.

use std::num::NonZeroU32;

use super::encoding::read;
use super::record::{Expected, Record};
use crate::tfs::{self, known};
use crate::Refusal;

/// How a replay ended.
#[derive(Clone, Copy, Debug, PartialEq, Eq)]
pub enum Replayed {
    /// So many records were replayed, all there are.
    All(usize),
    /// The record of this number, from 1, is malformed; nothing of it was made.
    Malformed(usize),
    /// The record of this number, from 1, had another answer; its request was made.
    Differs(usize),
}

/// Makes the requests of a trace one after another, as long as their answers are those expected.
pub fn replay(image: &mut [u8], trace: &[u8]) -> Result<Replayed, Refusal> {
    tfs::check(image)?;
    let (mut at, mut number) = (0, 0);
    while at < trace.len() {
        number += 1;
        let Some((record, next)) = read(trace, at) else {
            return Ok(Replayed::Malformed(number));
        };
        if !answers_as_expected(image, &record) {
            return Ok(Replayed::Differs(number));
        }
        at = next;
    }
    Ok(Replayed::All(number))
}

/// Makes the request of a record on a consistent volume, and compares the answer.
fn answers_as_expected(image: &mut [u8], record: &Record<'_>) -> bool {
    match *record {
        Record::Create {
            name,
            size,
            expected,
        } => same(known::create(image, name, size).map(drop), expected),
        Record::Remove { name, expected } => same(known::remove(image, name), expected),
        Record::Read {
            name,
            offset,
            length,
            expected,
        } => {
            let bytes = expected.unwrap_or_default();
            let equal = known::reads(image, name, offset, length, bytes);
            same(equal, expected.map(|_| true))
        }
        Record::Write {
            name,
            offset,
            bytes,
            expected,
        } => same(known::write(image, name, offset, bytes), expected),
        Record::FreeBytes { expected } => same(known::free_bytes(image), expected),
    }
}

/// Compares an answer with the one expected: the refusal's number or, both granted, the result.
fn same<T: PartialEq>(answer: Result<T, Refusal>, expected: Expected<T>) -> bool {
    answer.map_err(|refusal| NonZeroU32::new(refusal.number)) == expected.map_err(Some)
}
