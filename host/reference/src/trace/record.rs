//! Records, in a form that holds nothing that a trace cannot.

use std::num::NonZeroU32;

/// An expected answer: granted with a result, or refused with a number.
pub type Expected<T> = Result<T, NonZeroU32>;

/// A request and the answer expected of it.
#[derive(Clone, Copy, Debug, PartialEq, Eq)]
pub enum Record<'a> {
    /// Create of a name with a size.
    Create {
        /// The name.
        name: &'a [u8],
        /// The size.
        size: u32,
        /// The answer.
        expected: Expected<()>,
    },
    /// Remove of a name.
    Remove {
        /// The name.
        name: &'a [u8],
        /// The answer.
        expected: Expected<()>,
    },
    /// Read of a name from an offset on.
    Read {
        /// The name.
        name: &'a [u8],
        /// The offset.
        offset: u32,
        /// The length of the buffer.
        length: u32,
        /// The answer: the bytes read.
        expected: Expected<&'a [u8]>,
    },
    /// Write of bytes to a name from an offset on.
    Write {
        /// The name.
        name: &'a [u8],
        /// The offset.
        offset: u32,
        /// The bytes.
        bytes: &'a [u8],
        /// The answer: the count.
        expected: Expected<u32>,
    },
    /// Free bytes.
    FreeBytes {
        /// The answer: the number of bytes.
        expected: Expected<u32>,
    },
}

/// A part of a record as it stands in a trace.
#[derive(Clone, Copy, Debug, PartialEq, Eq)]
pub enum Field<'a> {
    /// A number.
    Number(u32),
    /// A byte string, behind its length.
    Bytes(&'a [u8]),
}

use Field::{Bytes, Number};

impl<'a> Record<'a> {
    /// The number of the request's kind.
    pub fn kind(&self) -> u32 {
        match self {
            Self::Create { .. } => 1,
            Self::Remove { .. } => 2,
            Self::Read { .. } => 3,
            Self::Write { .. } => 4,
            Self::FreeBytes { .. } => 5,
        }
    }

    /// The parts of the record in their order.
    pub fn fields(&self) -> impl Iterator<Item = Field<'a>> {
        let [first, second, third] = self.arguments();
        let [refusal, result] = self.answer();
        let kind = Some(Number(self.kind()));
        [kind, first, second, third, refusal, result]
            .into_iter()
            .flatten()
    }

    fn arguments(&self) -> [Option<Field<'a>>; 3] {
        match *self {
            Self::Create { name, size, .. } => [Some(Bytes(name)), Some(Number(size)), None],
            Self::Remove { name, .. } => [Some(Bytes(name)), None, None],
            Self::Read {
                name,
                offset,
                length,
                ..
            } => [Bytes(name), Number(offset), Number(length)].map(Some),
            Self::Write {
                name,
                offset,
                bytes,
                ..
            } => [Bytes(name), Number(offset), Bytes(bytes)].map(Some),
            Self::FreeBytes { .. } => [None; 3],
        }
    }

    fn answer(&self) -> [Option<Field<'a>>; 2] {
        let answer = match *self {
            Self::Create { expected, .. } | Self::Remove { expected, .. } => {
                expected.map(|()| None)
            }
            Self::Read { expected, .. } => expected.map(|bytes| Some(Bytes(bytes))),
            Self::Write { expected, .. } | Self::FreeBytes { expected } => {
                expected.map(|number| Some(Number(number)))
            }
        };
        match answer {
            Ok(result) => [Some(Number(0)), result],
            Err(refusal) => [Some(Number(refusal.get())), None],
        }
    }
}
