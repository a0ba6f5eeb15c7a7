//! Reads and writes whose ranges begin and end at the edges of blocks and beside them.

use reference::request::{Arguments, Request};
use reference::tfs::BLOCK_SIZE;

use super::drawn::Drawn;
use crate::tfs::{volume_with_files, File, Volume};
use crate::Random;

const BLOCK: u32 = BLOCK_SIZE as u32;

/// An offset in a file, and the length of a buffer.
pub(crate) struct Range {
    pub(crate) offset: u32,
    pub(crate) length: usize,
}

impl Range {
    /// A range from an offset to where the buffer ends.
    fn between(offset: u32, end: u32) -> Self {
        Self {
            offset,
            length: (end - offset) as usize,
        }
    }
}

/// Draws a range in a file of some size: an empty one, one whose buffer is longer than the rest of
/// the file, a few bytes over an edge, or one that ends inside the file or with it.
pub(crate) fn around_edges(random: &mut Random, size: u32) -> Range {
    match random.below(9) {
        0 => {
            let offset = near_edge(random, 0, size);
            Range::between(offset, offset)
        }
        1..=2 => {
            let offset = near_edge(random, size.saturating_sub(2000), size);
            Range::between(offset, behind(random, size))
        }
        3 if size > BLOCK => {
            let edge = BLOCK * random.between(1, (size - 1) as usize / BLOCK_SIZE) as u32;
            Range::between(edge - random.pick(&[1, 2]), edge + random.pick(&[1, 2]))
        }
        _ => {
            let offset = near_edge(random, 0, size);
            let farthest = offset + random.pick(&[600, 1100, 4000]);
            let end = near_edge(random, offset, size.min(farthest));
            Range::between(offset, end)
        }
    }
}

/// A position from one to another, mostly at the edge of a block or a byte beside it.
fn near_edge(random: &mut Random, from: u32, to: u32) -> u32 {
    let (first, last) = (from.div_ceil(BLOCK), to / BLOCK);
    let any = random.between(from as usize, to as usize) as u32;
    if first > last {
        return random.pick(&[any, any, to]);
    }
    let edge = BLOCK * random.between(first as usize, last as usize) as u32;
    let near = [edge.saturating_sub(1), edge, edge, edge + 1, any, to];
    random.pick(&near).clamp(from, to)
}

/// A position behind the end of a file: in its last block, at that block's end, or in a later one.
fn behind(random: &mut Random, size: u32) -> u32 {
    let edge = size.next_multiple_of(BLOCK);
    let ends = [
        size + 1,
        edge.max(size + 1),
        edge + 1,
        edge + BLOCK,
        edge + 1500,
    ];
    random.pick(&ends)
}

/// Adds reads and writes of every kind of range, in a file with a part of its last block and in one
/// that fills its blocks.
pub(super) fn one_of_each(drawn: &mut Drawn) {
    let made = volume_of_two(&mut drawn.random);
    in_file(drawn, &made.files[0], &PARTLY, &made.image);
    in_file(drawn, &made.files[1], &WHOLLY, &made.image);
}

/// Adds reads and writes of these ranges in a file.
fn in_file(drawn: &mut Drawn, file: &File, ranges: &[(u32, u32)], image: &[u8]) {
    for (offset, end) in ranges {
        let range = Range::between(*offset, *end);
        transfers(drawn, file, &range, image);
    }
}

/// The sizes of the two files.
const SIZES: [u32; 2] = [1_300, 1_024];

/// Offsets and ends of buffers in the first file.
const PARTLY: [(u32, u32); 26] = [
    (0, 511),
    (0, 512),
    (0, 513),
    (0, 1_024),
    (0, 1_300),
    (0, 1_537),
    (1, 512),
    (1, 1_025),
    (300, 300),
    (511, 512),
    (511, 513),
    (511, 1_024),
    (511, 1_025),
    (512, 512),
    (512, 1_024),
    (513, 1_024),
    (513, 1_025),
    (1_023, 1_300),
    (1_023, 1_536),
    (1_024, 1_537),
    (1_200, 1_400),
    (1_299, 1_536),
    (1_299, 2_100),
    (1_300, 1_300),
    (1_300, 1_536),
    (1_300, 2_100),
];

/// Offsets and ends of buffers in the second file.
const WHOLLY: [(u32, u32); 6] = [
    (0, 1_024),
    (0, 1_025),
    (512, 1_025),
    (1_023, 1_025),
    (1_024, 1_024),
    (1_024, 1_025),
];

/// A volume with the two files, and noise as their content.
fn volume_of_two(random: &mut Random) -> Volume {
    let mut made = two_files(random);
    for block in made.files.iter().flat_map(|file| &file.blocks) {
        let content = &mut made.image[BLOCK_SIZE * *block as usize..][..BLOCK_SIZE];
        random.fill(content);
    }
    made
}

/// The first two blocks of the first file stand one after another, the third stands apart.
fn two_files(random: &mut Random) -> Volume {
    loop {
        let made = volume_with_files(random, 12, &SIZES);
        let blocks = &made.files[0].blocks;
        if blocks[0] + 1 == blocks[1] && blocks[1] + 1 != blocks[2] {
            return made;
        }
    }
}

fn transfers(drawn: &mut Drawn, file: &File, range: &Range, image: &[u8]) {
    for request in [Request::TfsRead, Request::TfsWrite] {
        let arguments = Arguments {
            number: range.offset,
            name: file.name.clone(),
            buffer: drawn.random.bytes(range.length),
            ..Arguments::default()
        };
        drawn.add(request, arguments, image);
    }
}
