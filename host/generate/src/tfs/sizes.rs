//! Sizes of files.

use reference::tfs::BLOCK_SIZE;

use crate::Random;

/// A size up to `most`, often one at the edge of a block.
pub(super) fn some_size(random: &mut Random, most: usize) -> usize {
    let size = match random.below(8) {
        0 => 0,
        1 => BLOCK_SIZE,
        2 => BLOCK_SIZE * random.below(most / BLOCK_SIZE + 1),
        3 => random.pick(&[1, 511, 513, 1000, 1024, 1025]),
        4 => random.below(most + 1),
        _ => random.below(most.min(3 * BLOCK_SIZE) + 1),
    };
    size.min(most)
}
