//! What somebody wants written as a record, right or wrong.

use std::num::NonZeroU32;

use super::encoding::write;
use super::record::{Expected, Record};
use crate::Refusal;

/// A kind and numbers of any size; those that the kind does not have are ignored.
#[derive(Clone, Copy, Debug, Default, PartialEq, Eq)]
pub struct Entry {
    /// The kind.
    pub kind: u64,
    /// The size of a create.
    pub size: u64,
    /// The offset of a read or a write.
    pub offset: u64,
    /// The length of the buffer of a read.
    pub length: u64,
    /// The expected refusal, or 0.
    pub refusal: u64,
    /// The count of a granted write, or the number of free bytes.
    pub value: u64,
}

/// An entry with a name and bytes; where the record has none they are ignored too.
#[derive(Clone, Copy, Debug, Default, PartialEq, Eq)]
pub struct Draft<'a> {
    /// The kind and the numbers.
    pub entry: Entry,
    /// The name.
    pub name: &'a [u8],
    /// The bytes of a write, or those that a granted read gave.
    pub bytes: &'a [u8],
}

impl<'a> Draft<'a> {
    /// Writes the record to the start of a buffer and gives its length, or refuses with 33.
    pub fn write(&self, out: &mut [u8]) -> Result<usize, Refusal> {
        let record = self.record().ok_or(Refusal::plain(33))?;
        write(&record, out)
    }

    /// The record, if the kind is one and no number of it is too large.
    pub fn record(&self) -> Option<Record<'a>> {
        let (entry, name) = (&self.entry, self.name);
        Some(match entry.kind {
            1 => Record::Create {
                name,
                size: small(entry.size)?,
                expected: self.expected(|| Some(()))?,
            },
            2 => Record::Remove {
                name,
                expected: self.expected(|| Some(()))?,
            },
            3 => Record::Read {
                name,
                offset: small(entry.offset)?,
                length: small(entry.length)?,
                expected: self.expected(|| Some(self.bytes))?,
            },
            4 => Record::Write {
                name,
                offset: small(entry.offset)?,
                bytes: self.bytes,
                expected: self.expected(|| small(entry.value))?,
            },
            5 => Record::FreeBytes {
                expected: self.expected(|| small(entry.value))?,
            },
            _ => return None,
        })
    }

    fn expected<T>(&self, result: impl FnOnce() -> Option<T>) -> Option<Expected<T>> {
        match NonZeroU32::new(small(self.entry.refusal)?) {
            None => result().map(Ok),
            Some(refusal) => Some(Err(refusal)),
        }
    }

    /// Takes over the expected answer of a record.
    fn answer(&mut self, record: &Record<'a>) {
        let refused = match *record {
            Record::Create { expected, .. } | Record::Remove { expected, .. } => expected.err(),
            Record::Read { expected, .. } => expected.map(|bytes| self.bytes = bytes).err(),
            Record::Write { expected, .. } | Record::FreeBytes { expected } => {
                expected.map(|value| self.entry.value = value.into()).err()
            }
        };
        self.entry.refusal = refused.map_or(0, |refusal| refusal.get().into());
    }
}

impl<'a> From<Record<'a>> for Draft<'a> {
    fn from(record: Record<'a>) -> Self {
        let mut draft = Self::default();
        draft.entry.kind = record.kind().into();
        draft.answer(&record);
        match record {
            Record::Create { name, size, .. } => {
                draft.name = name;
                draft.entry.size = size.into();
            }
            Record::Remove { name, .. } => draft.name = name,
            Record::Read {
                name,
                offset,
                length,
                ..
            } => {
                draft.name = name;
                draft.entry.offset = offset.into();
                draft.entry.length = length.into();
            }
            Record::Write {
                name,
                offset,
                bytes,
                ..
            } => {
                (draft.name, draft.bytes) = (name, bytes);
                draft.entry.offset = offset.into();
            }
            Record::FreeBytes { .. } => {}
        }
        draft
    }
}

fn small(number: u64) -> Option<u32> {
    u32::try_from(number).ok()
}
