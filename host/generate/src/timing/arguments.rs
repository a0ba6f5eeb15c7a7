//! Arguments of requests on the timing file.

use reference::request::{Arguments, Request};
use reference::timing::{Timing, VALUES};

use super::{file_sizes, NAME, SIZE};
use crate::cases::{some_k, some_room};
use crate::Random;

/// Numbers that are drawn often, so that they meet; most are near to another.
const NUMBERS: [u32; 8] = [
    1,
    2,
    0x0100_0000,
    0x0102_0304,
    0x0403_0201,
    0x8000_0000,
    u32::MAX,
    u32::MAX - 1,
];

/// Tells whether a request is one on the timing file.
pub fn is_on_file(request: Request) -> bool {
    matches!(
        request,
        Request::TimingStore
            | Request::TimingOpenLid
            | Request::TimingBoot
            | Request::TimingStoreBlock
            | Request::TimingOpenLidBlock
    )
}

/// Draws arguments for a request on the timing file, mostly with the numbers of something known:
/// what it holds or held.
pub fn timing_arguments(random: &mut Random, request: Request, known: &[Timing]) -> Arguments {
    let mut timing = some_timing(random, known);
    if random.one_in(8) {
        timing.board = 0;
    }
    let stores = random.pick(&[1, 5]);
    let (k, buffer) = match request {
        Request::TimingStoreBlock => (some_k(random, stores), some_room(random)),
        Request::TimingOpenLidBlock => (some_k(random, 1), some_room(random)),
        _ => (0, Vec::new()),
    };
    Arguments {
        timing,
        k,
        buffer,
        ..Arguments::default()
    }
}

/// Draws numbers and values, often those of something known or near to them. The board number is
/// not 0, unless a known one is.
pub fn some_timing(random: &mut Random, known: &[Timing]) -> Timing {
    let maker = random.pick(&NUMBERS);
    let fresh = Timing {
        board: random.pick(&NUMBERS),
        maker: if random.one_in(8) { 0 } else { maker },
        values: some_values(random),
    };
    let Some(old) = random.choose(known).filter(|_| !random.one_in(6)) else {
        return fresh;
    };
    let near = match random.below(16) {
        0 => (old.board ^ 1 << random.below(32), old.maker),
        1 => (old.board, old.maker ^ 1 << random.below(32)),
        2 => (old.maker, old.board),
        3 => (old.board.swap_bytes(), old.maker),
        4 => (fresh.board, old.maker),
        5 => (old.board, fresh.maker),
        _ => (old.board, old.maker),
    };
    let values = match random.below(4) {
        0 => old.values,
        1 => one_changed(random, old.values),
        _ => fresh.values,
    };
    Timing {
        board: near.0,
        maker: near.1,
        values,
    }
}

fn one_changed(random: &mut Random, mut values: [u16; VALUES]) -> [u16; VALUES] {
    values[random.below(VALUES)] ^= 1 << random.below(16);
    values
}

/// Noise, values all alike, or one that stands out.
fn some_values(random: &mut Random) -> [u16; VALUES] {
    let noise = std::array::from_fn(|_| random.word() as u16);
    match random.below(8) {
        0 => [0; VALUES],
        1 => [u16::MAX; VALUES],
        2 => one_changed(random, [0; VALUES]),
        3 => std::array::from_fn(|index| 0x0100 + index as u16),
        _ => noise,
    }
}

/// Turns a request by name to the timing file, or to one with a similar name.
pub fn turn_to_file(random: &mut Random, request: Request, arguments: &mut Arguments) {
    let others: [&[u8]; 4] = [b"timing", b"TIMING ", b"TIMIN", b"TIMINGS"];
    arguments.name = match random.one_in(6) {
        true => random.pick(&others).to_vec(),
        false => NAME.to_vec(),
    };
    match request {
        Request::TfsCreate | Request::TfsCreateStore => {
            let size = random.pick(&file_sizes());
            arguments.number = random.pick(&[SIZE, SIZE, SIZE, SIZE, size]);
        }
        Request::TfsRead | Request::TfsWrite if random.one_in(2) => {
            let length = random.pick(&[1, 4, 8, 56, 64, 65]);
            arguments.number = random.pick(&[0, 0, 0, 4, 8, 63, 64]);
            arguments.buffer = random.bytes(length);
        }
        _ => {}
    }
}
