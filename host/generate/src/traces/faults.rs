//! Malformed traces.

use reference::trace::{read, Field};

use super::{records, replaced};
use crate::Random;

/// A way to make a record malformed.
#[derive(Clone, Copy, Debug, PartialEq, Eq, Hash)]
pub enum TraceFault {
    /// A number, a length or the kind stands in a longer form.
    LongerForm,
    /// The fifth group of a number is over 0F.
    FifthGroup,
    /// A number has six groups.
    SixGroups,
    /// The kind is none.
    NoKind,
    /// The record is cut off by the end.
    CutOff,
    /// A byte stands behind the last record.
    Trailing,
    /// A byte string is longer than what is left.
    TooLong,
}

impl TraceFault {
    /// All of them.
    pub const ALL: [Self; 7] = [
        Self::LongerForm,
        Self::FifthGroup,
        Self::SixGroups,
        Self::NoKind,
        Self::CutOff,
        Self::Trailing,
        Self::TooLong,
    ];
}

/// Makes one record of a trace malformed and gives its number, from 1.
///
/// Gives nothing if the trace has no record for it.
pub fn damage_trace(
    random: &mut Random,
    trace: &[u8],
    way: TraceFault,
) -> Option<(Vec<u8>, usize)> {
    let parts = records(trace);
    if way == TraceFault::Trailing {
        return Some(([trace, &[random.word() as u8]].concat(), parts.len() + 1));
    }
    let index = random.choose(&(0..parts.len()).collect::<Vec<_>>())?;
    let part = parts[index].clone();
    let damaged = match way {
        TraceFault::CutOff => {
            let any = random.between(part.start + 1, part.end - 1);
            trace[..random.pick(&[any, any, part.end - 1])].to_vec()
        }
        TraceFault::NoKind => {
            let any = random.between(6, 255) as u8;
            let kind = random.pick(&[0, 6, 127, 128, trace[part.start] | 0x80, any]);
            replaced(trace, part.start..part.start + 1, &[kind])
        }
        _ => {
            let mut numbers = numbers(trace, part.start);
            numbers.retain(|number| way != TraceFault::TooLong || number.is_length);
            let number = random.choose(&numbers)?;
            let wrong = match way {
                TraceFault::TooLong => too_long(random, trace.len() - number.end),
                _ => wrong_form(random, number.value, way),
            };
            replaced(trace, number.start..number.end, &wrong)
        }
    };
    Some((damaged, index + 1))
}

/// A number of a record, its kind and the lengths of byte strings among them.
#[derive(Clone, Copy)]
struct Number {
    value: u32,
    start: usize,
    end: usize,
    is_length: bool,
}

/// The numbers of the record at a position.
fn numbers(trace: &[u8], at: usize) -> Vec<Number> {
    let mut start = at;
    let fields = read(trace, at)
        .into_iter()
        .flat_map(|(record, _)| record.fields());
    let number = |field| {
        let (value, string) = match field {
            Field::Number(number) => (number, None),
            Field::Bytes(string) => (string.len() as u32, Some(string)),
        };
        let number = Number {
            value,
            start,
            end: start + groups(value).len(),
            is_length: string.is_some(),
        };
        start = number.end + string.map_or(0, <[u8]>::len);
        number
    };
    fields.map(number).collect()
}

/// The length of a byte string that has so many bytes behind it, and should have more.
fn too_long(random: &mut Random, behind: usize) -> Vec<u8> {
    let least = behind as u32 + 1;
    groups(random.pick(&[least, least, least + 1, 0x7FFF_FFFF, u32::MAX]))
}

/// The groups of a number in its shortest form.
fn groups(number: u32) -> Vec<u8> {
    let mut groups = vec![number as u8 & 0x7F];
    let mut rest = number >> 7;
    while rest > 0 {
        *groups.last_mut().expect("a group") |= 0x80;
        groups.push(rest as u8 & 0x7F);
        rest >>= 7;
    }
    groups
}

fn wrong_form(random: &mut Random, number: u32, way: TraceFault) -> Vec<u8> {
    let mut wrong = groups(number);
    let length = match way {
        TraceFault::LongerForm if wrong.len() < 5 => random.between(wrong.len() + 1, 5),
        TraceFault::FifthGroup => 5,
        _ => 6,
    };
    let last = wrong.len() - 1;
    if length > wrong.len() {
        wrong[last] |= 0x80;
        wrong.resize(length, 0x80);
        wrong[length - 1] = random.pick(&[0, 0, 1]) * u8::from(way == TraceFault::SixGroups);
    }
    if way == TraceFault::FifthGroup {
        wrong[4] |= random.pick(&[0x10, 0x20, 0x40, 0x70]);
    }
    wrong
}

/// Changes, removes or puts in some bytes, with an open outcome.
pub fn scramble_trace(random: &mut Random, trace: &[u8]) -> Vec<u8> {
    let mut scrambled = trace.to_vec();
    for _ in 0..random.between(1, 2) {
        let at = random.below(scrambled.len() + 1);
        let end = (at + 1).min(scrambled.len());
        let near = scrambled
            .get(at)
            .map_or(0, |byte| byte ^ (1 << random.below(8)));
        let byte = random.pick(&[0, 1, 0x80, near, near, near]);
        match random.below(3) {
            0 => scrambled.insert(at, byte),
            1 => drop(scrambled.drain(at..end)),
            _ => scrambled[at..end].fill(byte),
        }
    }
    scrambled
}
