//! Arguments of requests on TFS volumes.

use reference::request::{Arguments, Request};
use reference::tfs::{BLOCK_SIZE, LARGEST_FILE, SLOTS};

use super::ranges::{around_edges, Range};
use super::store_arguments::{count, store_arguments, stored};
use crate::tfs::{not_allowed, similar, File, Volume};
use crate::Random;

/// Draws arguments for a request on a volume, mostly good ones.
pub fn tfs_arguments(random: &mut Random, made: &Volume, request: Request) -> Arguments {
    match request {
        Request::TfsCreate => {
            let file = any_file(random, made, 2);
            Arguments {
                number: size(random, made),
                name: name(random, file, 6),
                ..Arguments::default()
            }
        }
        Request::TfsRemove | Request::TfsFormat => {
            let file = any_file(random, made, 6);
            Arguments {
                name: name(random, file, 1),
                ..Arguments::default()
            }
        }
        Request::TfsRead | Request::TfsWrite => transfer(random, made),
        Request::TfsList => Arguments {
            number: slot(random, made),
            ..Arguments::default()
        },
        _ => match stored(request) {
            None => Arguments::default(),
            Some(whole) => {
                let arguments = with_stores(random, made, request, whole);
                store_arguments(random, made, request, arguments)
            }
        },
    }
}

/// Arguments of a whole request, drawn again, if need be, until it has stores, but a few times only.
fn with_stores(random: &mut Random, made: &Volume, request: Request, whole: Request) -> Arguments {
    let mut arguments = tfs_arguments(random, made, whole);
    for _ in 0..random.below(6) {
        if count(made, request, &arguments) > 0 {
            break;
        }
        arguments = tfs_arguments(random, made, whole);
    }
    arguments
}

/// A file that stands, but one that is gone once in `times`, and where no other is left.
fn any_file<'a>(random: &mut Random, made: &'a Volume, times: usize) -> Option<&'a File> {
    let past = random.one_in(times) || made.files.is_empty();
    let files = match past && !made.gone.is_empty() {
        true => &made.gone,
        false => &made.files,
    };
    files.get(random.below(files.len().max(1)))
}

/// The name of a file, mostly; or a new one, more often if `new` is high; or one near to it.
fn name(random: &mut Random, file: Option<&File>, new: usize) -> Vec<u8> {
    let length = random.between(1, 15);
    let fresh = random.name(length);
    let known = file.map_or(&fresh, |file| &file.name);
    match random.below(20) {
        0..=15 if random.below(8) < new => fresh,
        0..=15 => known.clone(),
        16..=17 => similar(random, known),
        _ => not_allowed(random, known),
    }
}

/// A size of a new file, mostly one that there is room for.
pub(super) fn size(random: &mut Random, made: &Volume) -> u32 {
    let room = (BLOCK_SIZE * made.free_blocks().saturating_sub(1)) as u32;
    if random.below(10) < 7 {
        let fitting = [0, 1, 512, 513, room / 2, room, room];
        return random.pick(&fitting).min(room);
    }
    let sizes = [
        room + 1,
        room + 1,
        LARGEST_FILE,
        LARGEST_FILE + 1,
        1 << 31,
        u32::MAX,
    ];
    random.pick(&sizes)
}

/// A slot, mostly a used one, or a number that may be none.
fn slot(random: &mut Random, made: &Volume) -> u32 {
    let any = random.below(SLOTS) as u32;
    let used = any_file(random, made, 6).map_or(any, |file| file.slot as u32);
    random.pick(&[
        used,
        used,
        used,
        any,
        any,
        24,
        25,
        26,
        255,
        0x0100_0000,
        u32::MAX,
    ])
}

/// Arguments of a read or a write, by the size that the file has, or had.
fn transfer(random: &mut Random, made: &Volume) -> Arguments {
    let size = |file: Option<&File>| file.map_or(0, |file| file.size);
    let one = any_file(random, made, 6);
    let other = any_file(random, made, 6);
    let (file, Range { offset, length }) = match random.one_in(2) {
        true => {
            let larger = if size(one) < size(other) { other } else { one };
            (larger, around_edges(random, size(larger)))
        }
        false => (one, anywhere(random, size(one))),
    };
    Arguments {
        number: offset,
        name: name(random, file, 0),
        buffer: random.bytes(length),
        ..Arguments::default()
    }
}

/// A range in a file of some size, or behind it.
fn anywhere(random: &mut Random, size: u32) -> Range {
    let offset = offset(random, size);
    let length = buffer_length(random, size.saturating_sub(offset) as usize);
    Range { offset, length }
}

/// An offset in a file of some size, mostly inside, often at the edge of a block.
fn offset(random: &mut Random, size: u32) -> u32 {
    let inside = random.below(size as usize + 1) as u32;
    let edge = inside / 512 * 512;
    match random.below(10) {
        0 => 0,
        1 => size,
        2 => random.pick(&[size + 1, size + 512, 1 << 31, u32::MAX]),
        3 => edge,
        4 => edge.saturating_sub(1),
        _ => inside,
    }
}

/// The length of a buffer for a file with so many bytes behind the offset.
fn buffer_length(random: &mut Random, behind: usize) -> usize {
    let far = random.below(behind.min(4000) + 1);
    let lengths = [
        0,
        1,
        far,
        far,
        far,
        behind,
        behind + 1,
        behind + 40,
        511,
        512,
        513,
    ];
    random.pick(&lengths).min(5000)
}
