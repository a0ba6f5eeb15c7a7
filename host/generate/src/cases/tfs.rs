//! Cases on TFS volumes.

use reference::request::{Arguments, Request};
use reference::tfs::{BLOCK_SIZE, LARGEST_FILE, MOST_BLOCKS, SLOTS};

use super::case::Case;
use super::drawn::Drawn;
use super::tfs_arguments::{size, tfs_arguments};
use super::trace_arguments::trace_arguments;
use super::{mends, ranges, stores, timings, traces};
use crate::tfs::{
    any_volume, change_case, damage_slot, damage_volume, damage_volume_twice, has_leftovers,
    padding, scramble_volume, volume, File, Shape, SlotFault, Volume,
};
use crate::Random;

const OTHERS: [Request; 16] = [
    Request::TfsCreate,
    Request::TfsRead,
    Request::TfsWrite,
    Request::TfsRemove,
    Request::TfsReplay,
    Request::TfsCreate,
    Request::TfsRead,
    Request::TfsList,
    Request::TfsWrite,
    Request::TfsReplay,
    Request::TfsFormat,
    Request::TfsFree,
    Request::TfsCreateStore,
    Request::TfsRemoveStore,
    Request::TfsWriteStore,
    Request::TfsMend,
];

/// Draws cases on TFS volumes: a check of every image, other requests on some of them.
///
/// Every answer of every request, every way to break a slot or the map, every place where the end
/// of a volume cuts a word of the map, reads and writes around the edges of blocks, and every store
/// of some requests come up before the rest is left to chance. Some volumes have a timing file.
/// Volumes have 40 blocks at most, but
/// some have up to 133; with `large` the last few cases are on a volume of 4096 blocks.
pub fn tfs_cases(seed: u64, count: usize, large: bool) -> Vec<Case> {
    let mut drawn = Drawn::new(seed);
    let last = if large {
        count.min(OTHERS.len() + 1)
    } else {
        0
    };
    one_of_each(&mut drawn);
    while drawn.cases.len() < count - last {
        if drawn.random.one_in(8) {
            timings::on_next_volume(&mut drawn);
            continue;
        }
        let made = next_volume(&mut drawn.random);
        on_volume(&mut drawn, &made);
    }
    drawn.cases.truncate(count - last);
    if last > 0 {
        let made = volume(&mut drawn.random, Shape::Scattered, MOST_BLOCKS);
        drawn.add_plain(Request::TfsCheck, &made.image);
        (1..last).for_each(|_| other(&mut drawn, &made, &made.image));
    }
    drawn.cases
}

fn next_volume(random: &mut Random) -> Volume {
    match random.below(100) {
        0 => {
            let blocks = random.between(131, 133);
            volume(random, Shape::Largest, blocks)
        }
        1 => {
            let blocks = random.between(129, 132);
            volume(random, Shape::Empty, blocks)
        }
        2..=5 => {
            let blocks = random.between(28, 40);
            volume(random, Shape::Crowded, blocks)
        }
        _ => {
            let most = random.pick(&[6, 12, 24]);
            any_volume(random, most)
        }
    }
}

/// Adds cases on a volume as it is, or on a damaged copy.
fn on_volume(drawn: &mut Drawn, made: &Volume) {
    match damaged(&mut drawn.random, made) {
        None => {
            drawn.add_plain(Request::TfsCheck, &made.image);
            (0..OTHERS.len()).for_each(|_| other(drawn, made, &made.image));
            if made.files.len() == SLOTS {
                crowd(drawn, made);
            }
        }
        Some(image) => {
            drawn.add_plain(Request::TfsCheck, &image);
            if drawn.random.one_in(2) {
                drawn.add_plain(Request::TfsMend, &image);
            }
            if drawn.random.one_in(3) {
                other(drawn, made, &image);
            }
        }
    }
}

/// The image with one fault, with two, with some bytes changed, or noise; nothing if it is to stay.
fn damaged(random: &mut Random, made: &Volume) -> Option<Vec<u8>> {
    match random.below(20) {
        0..=8 => None,
        9..=13 => {
            let rule = random.pick(&[1, 2, 3, 4, 4, 4, 4, 5, 5, 6, 6, 6, 7, 7]);
            damage_volume(random, made, rule).map(|(image, _)| image)
        }
        14..=16 => {
            let rules = [2, 3, 4, 4, 4, 5, 5, 6, 6, 6, 7, 7];
            let rules = (random.pick(&rules), random.pick(&rules));
            damage_volume_twice(random, made, rules).map(|(image, _)| image)
        }
        17 if random.one_in(3) => {
            let length = random.below(2000);
            Some(random.bytes(length))
        }
        _ => Some(scramble_volume(random, made)),
    }
}

/// Adds a create in a full directory.
fn crowd(drawn: &mut Drawn, made: &Volume) {
    let size = size(&mut drawn.random, made);
    let name = drawn.random.name(9);
    add(drawn, Request::TfsCreate, size, &name, &made.image);
}

fn add(drawn: &mut Drawn, request: Request, number: u32, name: &[u8], image: &[u8]) {
    let arguments = Arguments {
        number,
        name: name.to_vec(),
        ..Arguments::default()
    };
    drawn.add(request, arguments, image);
}

/// Adds a case for every answer that every request can give on its own.
fn one_of_each(drawn: &mut Drawn) {
    let (made, file, gone) = volume_with_past(&mut drawn.random);
    let image = &made.image;
    let free = made.free_slot().unwrap_or(SLOTS);
    drawn.add_plain(Request::TfsCheck, image);
    names(drawn, &file, image);
    for name in names_around(&file, &gone) {
        transfers(drawn, &name, file.size, image);
    }
    for slot in [file.slot, free, SLOTS] {
        add(drawn, Request::TfsList, slot as u32, b"", image);
    }
    drawn.add_plain(Request::TfsFree, image);
    room(drawn);
    ranges::one_of_each(drawn);
    drawn.add_plain(Request::TfsFormat, &image[..3 * BLOCK_SIZE - 1]);
    let crowded = volume(&mut drawn.random, Shape::Crowded, 28);
    drawn.add_plain(Request::TfsCheck, &crowded.image);
    crowd(drawn, &crowded);
    let damaged = faults(&mut drawn.random, &made);
    for image in &damaged {
        drawn.add_plain(Request::TfsCheck, image);
    }
    slot_faults(drawn, &made);
    slot_faults(drawn, &crowded);
    traces::one_of_each(drawn, &made, &damaged);
    stores::one_of_each(drawn, &crowded, &damaged);
    mends::one_of_each(drawn, &made, &damaged);
    timings::one_of_each(drawn, &crowded);
}

/// A small volume of several files, the largest of which has a name of some letters, and one that
/// is gone. Leftovers stand behind that name and in the free slot that a create takes.
fn volume_with_past(random: &mut Random) -> (Volume, File, File) {
    loop {
        let made = volume(random, Shape::Lived, 12);
        let left = |slot| has_leftovers(&made.image, slot);
        if made.files.len() < 2 || !made.free_slot().is_some_and(left) {
            continue;
        }
        let largest = made.files.iter().map(|file| file.size).max();
        let worded = |file: &&File| {
            let letters = file.name.iter().all(u8::is_ascii_alphabetic);
            let words = letters && (3..15).contains(&file.name.len()) && left(file.slot);
            words && file.size > 0 && Some(file.size) == largest
        };
        let stands = |name: &[u8]| made.files.iter().any(|file| file.name == name);
        let file = made.files.iter().find(worded).cloned();
        let gone = made.gone.iter().find(|file| !stands(&file.name)).cloned();
        if let (Some(file), Some(gone)) = (file, gone) {
            return (made, file, gone);
        }
    }
}

/// Adds requests with a name that stands, one that does not, and two that are none.
fn names(drawn: &mut Drawn, file: &File, image: &[u8]) {
    let names: [&[u8]; 4] = [&file.name, b"some new name", b"", b"sixteen letters."];
    for name in names {
        for request in [Request::TfsRemove, Request::TfsFormat] {
            add(drawn, request, 0, name, image);
        }
        for size in [0, LARGEST_FILE, LARGEST_FILE + 1] {
            add(drawn, Request::TfsCreate, size, name, image);
        }
    }
}

/// The name of a file and that of a gone one, four that differ little, and five that are none.
fn names_around(file: &File, gone: &File) -> Vec<Vec<u8>> {
    let name = &file.name[..];
    let shorter = &name[..name.len() - 1];
    let mut other_case = name.to_vec();
    change_case(&mut other_case);
    let mut padded = name.to_vec();
    padded.resize(16, 0);
    vec![
        name.to_vec(),
        gone.name.clone(),
        shorter.to_vec(),
        [name, b"s"].concat(),
        [shorter, b"?"].concat(),
        other_case,
        Vec::new(),
        [name, b"sixteen letters."].concat()[..16].to_vec(),
        [name, b"\0"].concat(),
        [&name[..1], b"\0", &name[2..]].concat(),
        padded,
    ]
}

/// Adds free bytes on volumes whose end cuts a word of the map at every place, and creates of all
/// the room and of a block more; and free bytes where more words count.
fn room(drawn: &mut Drawn) {
    for blocks in 4..=35 {
        let made = padded_volume(&mut drawn.random, blocks);
        drawn.add_plain(Request::TfsFree, &made.image);
        let free = made.free_blocks();
        for content in [free - 1, free] {
            let size = (BLOCK_SIZE * content) as u32;
            add(
                drawn,
                Request::TfsCreate,
                size,
                b"some new name",
                &made.image,
            );
        }
    }
    for blocks in [63, 64, 65, 96, 128] {
        let made = padded_volume(&mut drawn.random, blocks);
        drawn.add_plain(Request::TfsFree, &made.image);
    }
}

/// A volume with room, and padding set in the word of the map that its end cuts, if any, and in a
/// later one.
fn padded_volume(random: &mut Random, blocks: usize) -> Volume {
    loop {
        let shape = random.pick(&[Shape::Scattered, Shape::Full, Shape::Lived]);
        let made = volume(random, shape, blocks);
        let padded = padding(&made.image, blocks) == [!blocks.is_multiple_of(32), true];
        if padded && made.free_blocks() > 0 {
            return made;
        }
    }
}

/// Adds reads and writes at the ends of a file of some size, with buffers that may be empty.
fn transfers(drawn: &mut Drawn, name: &[u8], size: u32, image: &[u8]) {
    for request in [Request::TfsRead, Request::TfsWrite] {
        for (offset, length) in [(0, 40), (0, 0), (size, 40), (size + 1, 0), (u32::MAX, 40)] {
            let arguments = Arguments {
                number: offset,
                name: name.to_vec(),
                buffer: drawn.random.bytes(length),
                ..Arguments::default()
            };
            drawn.add(request, arguments, image);
        }
    }
}

/// An image for each refusal of a check.
pub(super) fn faults(random: &mut Random, made: &Volume) -> Vec<Vec<u8>> {
    let fault = |rule| loop {
        if let Some((damaged, _)) = damage_volume(random, made, rule) {
            return damaged;
        }
    };
    (1..=7).map(fault).collect()
}

/// Adds some checks for each way to break a slot.
fn slot_faults(drawn: &mut Drawn, made: &Volume) {
    for way in SlotFault::ALL.repeat(4) {
        if let Some((damaged, _)) = damage_slot(&mut drawn.random, made, way) {
            drawn.add_plain(Request::TfsCheck, &damaged);
        }
    }
}

/// Adds the request whose turn it is.
fn other(drawn: &mut Drawn, made: &Volume, image: &[u8]) {
    let request = drawn.turn(&OTHERS);
    let random = &mut drawn.random;
    let arguments = match request {
        Request::TfsReplay => trace_arguments(random, made),
        _ => tfs_arguments(random, made, request),
    };
    drawn.add(request, arguments, image);
}
