//! Cases of the k-th stores.

use reference::request::{Arguments, Request};
use reference::tfs::{BLOCK_SIZE, LARGEST_FILE};

use super::drawn::Drawn;
use crate::tfs::{put_leftovers, put_padding, volume_with_files, Volume};
use crate::Random;

/// The size of the one file.
const SIZE: u32 = 1_300;

/// Its name.
const NAME: &[u8] = b"F0";

const NEW: &[u8] = b"some new name";

/// Numbers that are 1 to 3 in their lower 32 bits, and the largest.
const FAR: [usize; 4] = [(1 << 32) + 1, (1 << 32) + 3, 1 << 63 | 2, usize::MAX];

/// Adds every store of some requests and the numbers around them, buffers around a block, and the
/// refusals that go before 32.
pub(super) fn one_of_each(drawn: &mut Drawn, crowded: &Volume, damaged: &[Vec<u8>]) {
    let made = volume_with_room(&mut drawn.random);
    creates(drawn, &made.image);
    removes(drawn, &made.image);
    writes(drawn, &made.image);
    refusals(drawn, &made.image);
    unchanged(drawn);
    let asked = Asked::create(0, NEW);
    asked.add(drawn, 0, 0, &crowded.image);
    let requests = [asked, Asked::remove(NAME), Asked::write(0, NAME, 4)];
    for (asked, image) in requests.iter().cycle().zip(damaged) {
        asked.add(drawn, 0, 512, image);
    }
}

/// A volume of one file, which has three content blocks, and seven free blocks; noise wherever the
/// rules ignore it.
fn volume_with_room(random: &mut Random) -> Volume {
    let mut made = volume_with_files(random, 14, &[SIZE]);
    let inode = made.files[0].inode as usize;
    for block in (3..made.blocks).filter(|block| *block != inode) {
        random.fill(&mut made.image[BLOCK_SIZE * block..][..BLOCK_SIZE]);
    }
    put_leftovers(random, &mut made);
    put_padding(random, &mut made);
    made
}

/// A request whose stores are asked for.
struct Asked {
    request: Request,
    number: u32,
    name: &'static [u8],
    /// How many bytes are to be written.
    length: usize,
}

impl Asked {
    fn create(size: u32, name: &'static [u8]) -> Self {
        Self {
            request: Request::TfsCreateStore,
            number: size,
            name,
            length: 0,
        }
    }

    fn remove(name: &'static [u8]) -> Self {
        Self {
            request: Request::TfsRemoveStore,
            number: 0,
            name,
            length: 0,
        }
    }

    fn write(offset: u32, name: &'static [u8], length: usize) -> Self {
        Self {
            request: Request::TfsWriteStore,
            number: offset,
            name,
            length,
        }
    }

    /// Adds the k-th store, into a buffer of some length.
    fn add(&self, drawn: &mut Drawn, k: usize, room: usize, image: &[u8]) {
        let arguments = Arguments {
            number: self.number,
            name: self.name.to_vec(),
            k,
            bytes: drawn.random.bytes(self.length),
            buffer: drawn.random.bytes(room),
            ..Arguments::default()
        };
        drawn.add(self.request, arguments, image);
    }

    /// Adds the stores of these numbers, and the first into buffers around a block.
    fn add_all(&self, drawn: &mut Drawn, numbers: impl Iterator<Item = usize>, image: &[u8]) {
        for k in numbers {
            self.add(drawn, k, 512, image);
        }
        for room in [0, 511, 513, 600] {
            self.add(drawn, 1, room, image);
        }
    }
}

fn creates(drawn: &mut Drawn, image: &[u8]) {
    Asked::create(1_100, NEW).add_all(drawn, (0..=7).chain(FAR), image);
    for (size, last) in [(0, 3), (1, 4), (512, 4), (513, 5)] {
        for k in [1, last, last + 1] {
            Asked::create(size, NEW).add(drawn, k, 512, image);
        }
    }
}

fn removes(drawn: &mut Drawn, image: &[u8]) {
    Asked::remove(NAME).add_all(drawn, (0..=3).chain(FAR), image);
}

fn writes(drawn: &mut Drawn, image: &[u8]) {
    Asked::write(0, NAME, SIZE as usize).add_all(drawn, (0..=4).chain(FAR), image);
    // Offset, length and number of stores.
    for (offset, length, last) in [
        (511, 2, 2),
        (511, 514, 3),
        (512, 512, 1),
        (1_299, 500, 1),
        (300, 0, 0),
        (1_300, 40, 0),
    ] {
        for k in [1, last, last + 1] {
            Asked::write(offset, NAME, length).add(drawn, k, 512, image);
        }
    }
}

/// Adds stores of blocks that stay as they are: zeros over zeros.
fn unchanged(drawn: &mut Drawn) {
    let made = volume_with_files(&mut drawn.random, 8, &[600]);
    for k in 1..=3 {
        Asked::create(513, NEW).add(drawn, k, 512, &made.image);
        let arguments = Arguments {
            number: 500,
            name: NAME.to_vec(),
            k,
            bytes: vec![0; 40],
            buffer: drawn.random.bytes(512),
            ..Arguments::default()
        };
        drawn.add(Request::TfsWriteStore, arguments, &made.image);
    }
}

/// Adds what is refused before 32 would be.
fn refusals(drawn: &mut Drawn, image: &[u8]) {
    let room = (BLOCK_SIZE * 7) as u32;
    for asked in [
        Asked::create(LARGEST_FILE + 1, b""),
        Asked::create(LARGEST_FILE + 1, NAME),
        Asked::create(LARGEST_FILE, NAME),
        Asked::create(room, NEW),
        Asked::remove(b"sixteen letters."),
        Asked::remove(NEW),
        Asked::write(SIZE + 1, b"", 4),
        Asked::write(SIZE + 1, NEW, 4),
        Asked::write(SIZE + 1, NAME, 4),
    ] {
        asked.add(drawn, 0, 0, image);
    }
}
