//! Traces with one answer that the volume does not give.

use std::num::NonZeroU32;
use std::ops::Range;

use reference::trace::{read, write_all, Expected, Record};

use super::{records, replaced};
use crate::Random;

/// What is changed in an expected answer.
#[derive(Clone, Copy, Debug, PartialEq, Eq, Hash)]
pub enum AnswerChange {
    /// Granted where it was refused.
    Granted,
    /// Refused where it was granted.
    Refused,
    /// Another refusal.
    OtherRefusal,
    /// Another count or number of free bytes.
    OtherNumber,
    /// One other byte.
    OtherByte,
    /// More bytes than were read.
    LongerBytes,
    /// Fewer bytes than were read.
    ShorterBytes,
    /// The buffer of a read ends inside the bytes that are expected.
    ShorterBuffer,
}

impl AnswerChange {
    /// All of them.
    pub const ALL: [Self; 8] = [
        Self::Granted,
        Self::Refused,
        Self::OtherRefusal,
        Self::OtherNumber,
        Self::OtherByte,
        Self::LongerBytes,
        Self::ShorterBytes,
        Self::ShorterBuffer,
    ];
}

/// Changes one answer of a trace in a given way and gives the number of its record, from 1.
///
/// Gives nothing if the trace has no answer of that kind.
pub fn change_answer(
    random: &mut Random,
    trace: &[u8],
    change: AnswerChange,
) -> Option<(Vec<u8>, usize)> {
    let mut changed: Vec<(usize, Range<usize>, Vec<u8>)> = Vec::new();
    for (index, part) in records(trace).into_iter().enumerate() {
        let (record, _) = read(trace, part.start)?;
        if let Some(bytes) = changed_record(random, record, change) {
            changed.push((index + 1, part, bytes));
        }
    }
    if changed.is_empty() {
        return None;
    }
    let (number, part, bytes) = changed.swap_remove(random.below(changed.len()));
    Some((replaced(trace, part, &bytes), number))
}

/// The bytes of a record with another answer, if the change fits it.
fn changed_record(
    random: &mut Random,
    record: Record<'_>,
    change: AnswerChange,
) -> Option<Vec<u8>> {
    let mut bytes = match record {
        Record::Read {
            expected: Ok(bytes),
            ..
        } => bytes.to_vec(),
        _ => Vec::new(),
    };
    let mut record = record;
    match &mut record {
        Record::Create { expected, .. } | Record::Remove { expected, .. } => {
            *expected = changed(random, *expected, change, ())?;
        }
        Record::Read {
            expected, length, ..
        } => {
            if expected.is_ok() && change_bytes(random, &mut bytes, length, change) {
                *expected = Ok(&bytes);
            } else {
                *expected = changed(random, *expected, change, &b""[..])?;
            }
        }
        Record::Write { expected, .. } | Record::FreeBytes { expected } => {
            *expected = match (*expected, change) {
                (Ok(number), AnswerChange::OtherNumber) => Ok(other_number(random, number)),
                _ => changed(random, *expected, change, 0)?,
            };
        }
    }
    write_all(&[record]).ok()
}

/// Changes between granted and refused, and from one refusal to another.
fn changed<T>(
    random: &mut Random,
    expected: Expected<T>,
    change: AnswerChange,
    granted: T,
) -> Option<Expected<T>> {
    match (expected, change) {
        (Err(_), AnswerChange::Granted) => Some(Ok(granted)),
        (Ok(_), AnswerChange::Refused) => Some(Err(refusal(random, 0))),
        (Err(number), AnswerChange::OtherRefusal) => Some(Err(refusal(random, number.get()))),
        _ => None,
    }
}

/// A refusal of another number.
fn refusal(random: &mut Random, than: u32) -> NonZeroU32 {
    let near = [than + 1, than.saturating_sub(1)];
    let numbers = [near[0], near[1], 1, 8, 12, 13, 15, 33, 128, u32::MAX];
    loop {
        let number = random.pick(&numbers);
        if let Some(number) = NonZeroU32::new(number).filter(|_| number != than) {
            return number;
        }
    }
}

fn other_number(random: &mut Random, than: u32) -> u32 {
    let by = random.pick(&[1, u32::MAX, 512, 0x100, 1 << 31]);
    than.wrapping_add(by)
}

/// Changes the bytes of a granted read, or the length of its buffer; tells whether that fits.
fn change_bytes(
    random: &mut Random,
    bytes: &mut Vec<u8>,
    length: &mut u32,
    change: AnswerChange,
) -> bool {
    match change {
        AnswerChange::LongerBytes => bytes.push(random.pick(&[0, 0x5A])),
        _ if bytes.is_empty() => return false,
        AnswerChange::OtherByte => {
            let any = random.below(bytes.len());
            let at = random.pick(&[any, 0, bytes.len() - 1]);
            bytes[at] ^= 1 << random.below(8);
        }
        AnswerChange::ShorterBytes => {
            let any = random.below(bytes.len());
            bytes.truncate(random.pick(&[any, 0, bytes.len() - 1]));
        }
        AnswerChange::ShorterBuffer => *length = random.below(bytes.len()) as u32,
        _ => return false,
    }
    true
}
