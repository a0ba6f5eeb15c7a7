//! Cases of the requests on the timing file.

use reference::request::{Arguments, Request};
use reference::tfs::BLOCK_SIZE;
use reference::timing::{Timing, VALUES};

use super::drawn::Drawn;
use super::tfs::faults;
use crate::tfs::{damage_map, put_leftovers, put_padding, volume_with_files, MapFault, Volume};
use crate::timing::{
    encoded, put_file, said, some_timing, timing_arguments, timing_volume, NAME, SIZE,
};
use crate::Random;

const REQUESTS: [Request; 5] = [
    Request::TimingStore,
    Request::TimingOpenLid,
    Request::TimingBoot,
    Request::TimingStoreBlock,
    Request::TimingOpenLidBlock,
];

/// The numbers that the file holds where it stands.
const BOARD: u32 = 0x0102_0304;
const MAKER: u32 = 0x8000_0001;

/// Numbers that are 1 in their lower 32 bits, and the largest.
const FAR: [usize; 3] = [(1 << 32) + 1, 1 << 63 | 1, usize::MAX];

/// The bytes of the values that a boot gives.
const VALUE_BYTES: usize = 2 * VALUES;

/// Adds every answer of the five requests, and every store of a store and of an opening.
pub(super) fn one_of_each(drawn: &mut Drawn, crowded: &Volume) {
    on_sound(drawn);
    on_opened(drawn);
    on_absent(drawn);
    on_other_sizes(drawn);
    without_room(drawn, crowded);
    on_damaged(drawn);
}

/// Adds the requests on a volume with a timing file or without one.
pub(super) fn on_next_volume(drawn: &mut Drawn) {
    let made = loop {
        let made = timing_volume(&mut drawn.random, 24);
        if made.blocks <= 40 {
            break made;
        }
    };
    let known = said(&made.image);
    for request in REQUESTS {
        let random = &mut drawn.random;
        let mut arguments = timing_arguments(random, request, &known);
        if request == Request::TimingBoot {
            arguments.buffer = random.bytes(VALUE_BYTES);
        }
        drawn.add(request, arguments, &made.image);
    }
}

/// A volume of one file, with so many free blocks; noise wherever the rules ignore it.
fn volume_with_room(random: &mut Random, free: usize) -> Volume {
    let mut made = volume_with_files(random, 5 + free, &[300]);
    let inode = made.files[0].inode as usize;
    for block in (3..made.blocks).filter(|block| *block != inode) {
        random.fill(&mut made.image[BLOCK_SIZE * block..][..BLOCK_SIZE]);
    }
    put_leftovers(random, &mut made);
    put_padding(random, &mut made);
    made
}

/// An image with a file of a name, a size and a board number.
fn image_with(random: &mut Random, name: &[u8], size: u32, board: u32) -> Vec<u8> {
    let mut made = volume_with_room(random, 5);
    put(random, &mut made, name, size, board);
    made.image
}

fn put(random: &mut Random, made: &mut Volume, name: &[u8], size: u32, board: u32) {
    let timing = Timing {
        board,
        maker: MAKER,
        values: noise(random),
    };
    assert!(put_file(random, made, name, size, &encoded(&timing)));
}

fn noise(random: &mut Random) -> [u16; VALUES] {
    std::array::from_fn(|_| random.word() as u16)
}

/// Adds a request with noise as values and buffer.
fn add(
    drawn: &mut Drawn,
    request: Request,
    numbers: (u32, u32),
    k: usize,
    room: usize,
    image: &[u8],
) {
    let arguments = Arguments {
        timing: Timing {
            board: numbers.0,
            maker: numbers.1,
            values: noise(&mut drawn.random),
        },
        k,
        buffer: drawn.random.bytes(room),
        ..Arguments::default()
    };
    drawn.add(request, arguments, image);
}

fn boot(drawn: &mut Drawn, board: u32, maker: u32, image: &[u8]) {
    let numbers = (board, maker);
    add(drawn, Request::TimingBoot, numbers, 0, VALUE_BYTES, image);
}

fn store(drawn: &mut Drawn, image: &[u8]) {
    let maker = some_timing(&mut drawn.random, &[]).maker;
    add(drawn, Request::TimingStore, (BOARD, maker), 0, 0, image);
}

fn open_lid(drawn: &mut Drawn, image: &[u8]) {
    add(drawn, Request::TimingOpenLid, (0, 0), 0, 0, image);
}

/// Adds the k-th store of a request, into a buffer of some length.
fn block(drawn: &mut Drawn, request: Request, k: usize, room: usize, image: &[u8]) {
    add(drawn, request, (BOARD, MAKER), k, room, image);
}

/// Adds a request that is refused before 32 would be.
fn refused(drawn: &mut Drawn, request: Request, board: u32, image: &[u8]) {
    match request {
        Request::TimingBoot => boot(drawn, board, MAKER, image),
        _ => add(drawn, request, (board, MAKER), 0, 0, image),
    }
}

/// Adds the stores of these numbers, and the first into buffers around a block.
fn blocks(drawn: &mut Drawn, request: Request, numbers: impl Iterator<Item = usize>, image: &[u8]) {
    for k in numbers {
        block(drawn, request, k, BLOCK_SIZE, image);
    }
    for room in [0, 511, 513] {
        block(drawn, request, 1, room, image);
    }
}

fn on_sound(drawn: &mut Drawn) {
    let image = image_with(&mut drawn.random, NAME, SIZE, BOARD);
    store(drawn, &image);
    open_lid(drawn, &image);
    for (board, maker) in [
        (BOARD, MAKER),
        (BOARD ^ 1, MAKER),
        (BOARD, MAKER ^ 1),
        (BOARD ^ 1 << 31, MAKER ^ 1 << 31),
        (MAKER, BOARD),
        (BOARD.swap_bytes(), MAKER.swap_bytes()),
        (0, MAKER),
    ] {
        boot(drawn, board, maker, &image);
    }
    for request in [Request::TimingStore, Request::TimingStoreBlock] {
        refused(drawn, request, 0, &image);
    }
    for request in [Request::TimingStoreBlock, Request::TimingOpenLidBlock] {
        blocks(drawn, request, (0..=2).chain(FAR), &image);
    }
}

fn on_opened(drawn: &mut Drawn) {
    let image = image_with(&mut drawn.random, NAME, SIZE, 0);
    store(drawn, &image);
    open_lid(drawn, &image);
    boot(drawn, BOARD, MAKER, &image);
    boot(drawn, 0, MAKER, &image);
    for request in [Request::TimingStoreBlock, Request::TimingOpenLidBlock] {
        block(drawn, request, 1, BLOCK_SIZE, &image);
    }
}

fn on_absent(drawn: &mut Drawn) {
    let image = volume_with_room(&mut drawn.random, 4).image;
    store(drawn, &image);
    for request in [Request::TimingStore, Request::TimingStoreBlock] {
        refused(drawn, request, 0, &image);
    }
    blocks(drawn, Request::TimingStoreBlock, (0..=6).chain(FAR), &image);
    let similar = image_with(&mut drawn.random, b"timing", SIZE, BOARD);
    store(drawn, &similar);
    for request in REQUESTS {
        let stores = [Request::TimingStore, Request::TimingStoreBlock];
        if !stores.contains(&request) {
            refused(drawn, request, BOARD, &image);
            refused(drawn, request, BOARD, &similar);
        }
    }
}

/// Adds requests on files of other sizes; 34 goes before 35 in a store, and behind it in a boot.
fn on_other_sizes(drawn: &mut Drawn) {
    for size in [0, SIZE - 1, SIZE + 1] {
        let image = image_with(&mut drawn.random, NAME, size, BOARD);
        for request in REQUESTS {
            refused(drawn, request, BOARD, &image);
        }
    }
    let image = image_with(&mut drawn.random, NAME, SIZE + 1, 0);
    for request in [Request::TimingStore, Request::TimingBoot] {
        refused(drawn, request, 0, &image);
    }
}

/// Adds stores on volumes without a slot, without the room, and with exactly the room; and one to a
/// file that stands, which needs none.
fn without_room(drawn: &mut Drawn, crowded: &Volume) {
    let little = volume_with_room(&mut drawn.random, 1).image;
    for image in [&crowded.image, &little] {
        for request in [Request::TimingStore, Request::TimingStoreBlock] {
            refused(drawn, request, BOARD, image);
        }
    }
    let enough = volume_with_room(&mut drawn.random, 2).image;
    store(drawn, &enough);
    block(drawn, Request::TimingStoreBlock, 5, BLOCK_SIZE, &enough);
    let mut full = volume_with_room(&mut drawn.random, 0);
    put(&mut drawn.random, &mut full, NAME, SIZE, BOARD);
    store(drawn, &full.image);
    block(drawn, Request::TimingStoreBlock, 1, BLOCK_SIZE, &full.image);
}

/// Adds a boot and another request for each refusal of the check, and where a mend would help, on
/// volumes that have the file.
fn on_damaged(drawn: &mut Drawn) {
    let mut made = volume_with_room(&mut drawn.random, 5);
    put(&mut drawn.random, &mut made, NAME, SIZE, BOARD);
    let others = REQUESTS.iter().filter(|one| **one != Request::TimingBoot);
    let mut images = faults(&mut drawn.random, &made);
    let strayed = damage_map(&mut drawn.random, &made, MapFault::AllStray);
    images.extend(strayed.map(|damaged| damaged.image));
    for (request, image) in others.cycle().zip(&images) {
        boot(drawn, BOARD, MAKER, image);
        refused(drawn, *request, BOARD, image);
    }
}
