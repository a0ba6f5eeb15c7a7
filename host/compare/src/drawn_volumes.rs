//! What is drawn for TFS: volumes, and arguments besides the usual ones.

use generate::cuts::{Change, Series};
use generate::tfs::{
    any_volume, damage_map, damage_volume, damage_volume_twice, scramble_volume, stray_beside,
    volume, MapFault, Shape, Volume,
};
use generate::Random;
use reference::request::{Arguments, Request};
use reference::tfs::{check, BLOCK_SIZE, LARGEST_FILE, MOST_BLOCKS};
use reference::Refusal;

/// A consistent volume, mostly a small one, or noise.
pub(crate) fn any_image(random: &mut Random) -> Volume {
    match random.below(200) {
        0..=1 => {
            let near = MOST_BLOCKS - random.pick(&[1, 31, 32]);
            let blocks = random.pick(&[MOST_BLOCKS, MOST_BLOCKS, near, 2048, 1000]);
            let shapes = [
                Shape::Scattered,
                Shape::Full,
                Shape::Lived,
                Shape::Largest,
                Shape::Empty,
            ];
            let shape = random.pick(&shapes);
            volume(random, shape, blocks)
        }
        2..=9 => {
            let blocks = random.between(129, 140);
            let shape = random.pick(&[Shape::Largest, Shape::Empty, Shape::Full]);
            volume(random, shape, blocks)
        }
        10..=29 => {
            let blocks = random.pick(&[31, 32, 33, 63, 64, 65, 96, 97, 127, 128]);
            let shape = random.pick(&[Shape::Scattered, Shape::Full, Shape::Lived]);
            volume(random, shape, blocks)
        }
        30..=44 => {
            let blocks = random.between(28, 40);
            volume(random, Shape::Crowded, blocks)
        }
        45..=54 => noise(random),
        // Every place where the end can cut a word of the map, three times.
        55..=84 => {
            let blocks = random.between(25, 120);
            let shape = random.pick(&[Shape::Scattered, Shape::Full, Shape::Lived]);
            volume(random, shape, blocks)
        }
        _ => any_volume(random, 140),
    }
}

fn noise(random: &mut Random) -> Volume {
    let any = random.below(5000);
    let length = random.pick(&[0, 1, 512, 1535, 1536, 1537, any, any, any, any]);
    Volume {
        image: random.bytes(length),
        blocks: (length / BLOCK_SIZE).max(3),
        files: Vec::new(),
        gone: Vec::new(),
    }
}

/// A damaged copy of a volume: with one fault or two, with bits of its map turned, alone or beside
/// another fault, cut in the middle of a request, or with some bytes changed.
pub(crate) fn damaged(random: &mut Random, made: &Volume) -> Vec<u8> {
    let rules = [1, 2, 3, 4, 4, 4, 5, 5, 5, 6, 6, 6, 7, 7, 7];
    let rules = (random.pick(&rules), random.pick(&rules));
    let struck = |struck: Option<(Vec<u8>, Refusal)>| struck.map(|(image, _)| image);
    let damaged = match random.below(10) {
        0..=2 => struck(damage_volume(random, made, rules.0)),
        3..=4 => struck(damage_volume_twice(random, made, rules)),
        5..=6 => {
            let way = random.pick(&MapFault::ALL);
            damage_map(random, made, way).map(|damaged| damaged.image)
        }
        7 => struck(stray_beside(random, made, rules.0.min(6))),
        8 => cut(random, made),
        _ => None,
    };
    damaged.unwrap_or_else(|| scramble_volume(random, made))
}

/// A consistent volume on which a create, a remove, a write or a store of the timing file was cut.
fn cut(random: &mut Random, made: &Volume) -> Option<Vec<u8>> {
    check(&made.image).ok()?;
    let kind = random.below(4);
    let change = Change::draw(random, made, kind)?;
    let series = Series::of_reference(random, change, &made.image);
    let last = series.stores.len();
    let count = random.pick(&[1, last.saturating_sub(1), last / 2]);
    Some(series.cut(count.min(last)))
}

/// Now and then takes sizes, offsets and buffers at the far ends, and small sizes.
pub(crate) fn twist(random: &mut Random, request: Request, arguments: &mut Arguments) {
    match request {
        Request::TfsRead | Request::TfsWrite => twist_transfer(random, arguments),
        Request::TfsCreate => twist_create(random, arguments),
        _ => {}
    }
}

fn twist_transfer(random: &mut Random, arguments: &mut Arguments) {
    const LARGEST: usize = LARGEST_FILE as usize;
    if random.one_in(24) {
        let around = random.pick(&[LARGEST_FILE - 1, LARGEST_FILE, LARGEST_FILE + 1]);
        let far = [around, around, around, 1 << 31, u32::MAX - 511, u32::MAX];
        arguments.number = random.pick(&far);
    }
    if random.one_in(24) {
        let length = random.pick(&[LARGEST, LARGEST + 1, 70_000]);
        arguments.buffer = random.bytes(length);
    }
}

fn twist_create(random: &mut Random, arguments: &mut Arguments) {
    if random.one_in(3) {
        arguments.number = random.below(1500) as u32;
    }
    if random.one_in(24) {
        let around = random.pick(&[LARGEST_FILE - 512, LARGEST_FILE - 511, LARGEST_FILE + 1]);
        arguments.number = random.pick(&[around, around, LARGEST_FILE, u32::MAX]);
    }
}
