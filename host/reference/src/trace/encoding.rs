//! Records as bytes.

use std::num::NonZeroU32;

use super::record::{Expected, Field, Record};
use crate::Refusal;

/// A byte holds a group of seven bits; this one says that another group follows.
const MORE: u8 = 0x80;

/// The last of five groups holds the upper four of 32 bits.
const FIFTH_AT_MOST: u8 = 0x0F;

const NOT_WRITTEN: Refusal = Refusal::plain(33);

/// What stands in a trace where no record does.
#[derive(Clone, Copy, Debug, PartialEq, Eq)]
pub struct Malformed {
    /// The number that the record would have, from 1.
    pub number: usize,
    /// The position where it would start.
    pub at: usize,
}

/// Reads the record at a position and gives it with the position where the next one starts.
pub fn read(trace: &[u8], at: usize) -> Option<(Record<'_>, usize)> {
    let mut reader = Reader {
        rest: trace.get(at..)?,
    };
    let record = reader.record()?;
    Some((record, trace.len() - reader.rest.len()))
}

/// Reads a whole trace.
pub fn read_all(trace: &[u8]) -> Result<Vec<Record<'_>>, Malformed> {
    let mut records = Vec::new();
    let mut at = 0;
    while at < trace.len() {
        let number = records.len() + 1;
        let (record, next) = read(trace, at).ok_or(Malformed { number, at })?;
        records.push(record);
        at = next;
    }
    Ok(records)
}

/// Writes a record to the start of a buffer and gives its length.
///
/// It is refused, and nothing written, if the buffer is too short or a length is 2^32 or more.
pub fn write(record: &Record<'_>, out: &mut [u8]) -> Result<usize, Refusal> {
    let length = length(record).ok_or(NOT_WRITTEN)?;
    let mut room = out.get_mut(..length).ok_or(NOT_WRITTEN)?;
    for field in record.fields() {
        match field {
            Field::Number(number) => put_number(&mut room, number),
            Field::Bytes(bytes) => {
                put_number(&mut room, bytes.len() as u32);
                put(&mut room, bytes);
            }
        }
    }
    Ok(length)
}

/// Writes a whole trace.
pub fn write_all(records: &[Record<'_>]) -> Result<Vec<u8>, Refusal> {
    let mut trace = Vec::new();
    for record in records {
        let start = trace.len();
        trace.resize(start + length(record).ok_or(NOT_WRITTEN)?, 0);
        write(record, &mut trace[start..])?;
    }
    Ok(trace)
}

/// The number of bytes of a record, if it has a form in a trace.
fn length(record: &Record<'_>) -> Option<usize> {
    record.fields().try_fold(0usize, |sum, field| {
        let length = match field {
            Field::Number(number) => groups(number),
            Field::Bytes(bytes) => groups(u32::try_from(bytes.len()).ok()?) + bytes.len(),
        };
        sum.checked_add(length)
    })
}

/// The number of groups that a number has.
fn groups(number: u32) -> usize {
    let bits = u32::BITS - number.leading_zeros();
    bits.div_ceil(7).max(1) as usize
}

fn put_number(room: &mut &mut [u8], mut number: u32) {
    while number >= u32::from(MORE) {
        put(room, &[number as u8 | MORE]);
        number >>= 7;
    }
    put(room, &[number as u8]);
}

fn put(room: &mut &mut [u8], bytes: &[u8]) {
    let (start, rest) = std::mem::take(room).split_at_mut(bytes.len());
    start.copy_from_slice(bytes);
    *room = rest;
}

/// The part of a trace that is not read yet.
struct Reader<'a> {
    rest: &'a [u8],
}

impl<'a> Reader<'a> {
    fn record(&mut self) -> Option<Record<'a>> {
        Some(match self.number()? {
            1 => Record::Create {
                name: self.bytes()?,
                size: self.number()?,
                expected: self.expected(|_| Some(()))?,
            },
            2 => Record::Remove {
                name: self.bytes()?,
                expected: self.expected(|_| Some(()))?,
            },
            3 => Record::Read {
                name: self.bytes()?,
                offset: self.number()?,
                length: self.number()?,
                expected: self.expected(Self::bytes)?,
            },
            4 => Record::Write {
                name: self.bytes()?,
                offset: self.number()?,
                bytes: self.bytes()?,
                expected: self.expected(Self::number)?,
            },
            5 => Record::FreeBytes {
                expected: self.expected(Self::number)?,
            },
            _ => return None,
        })
    }

    fn expected<T>(&mut self, result: impl FnOnce(&mut Self) -> Option<T>) -> Option<Expected<T>> {
        match NonZeroU32::new(self.number()?) {
            None => result(self).map(Ok),
            Some(refusal) => Some(Err(refusal)),
        }
    }

    fn bytes(&mut self) -> Option<&'a [u8]> {
        let length = self.number()?;
        let (bytes, rest) = self.rest.split_at_checked(length as usize)?;
        self.rest = rest;
        Some(bytes)
    }

    /// A number of five groups at most, in its shortest form.
    fn number(&mut self) -> Option<u32> {
        let mut number = 0;
        for shift in [0, 7, 14, 21, 28] {
            let (&byte, rest) = self.rest.split_first()?;
            self.rest = rest;
            if shift == 28 && byte > FIFTH_AT_MOST {
                return None;
            }
            number |= u32::from(byte & !MORE) << shift;
            if byte & MORE == 0 {
                let shortest = byte != 0 || shift == 0;
                return shortest.then_some(number);
            }
        }
        None
    }
}
