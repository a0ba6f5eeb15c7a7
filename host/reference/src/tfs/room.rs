//! The count of the map's bits.

use super::layout::{word, words, Block};

/// The number of set bits below `count` of a map, consistent or not.
///
/// These are the ones of each word that starts below `count`, the last of these words cut there.
pub(super) fn ones_below(map: &Block, count: usize) -> u32 {
    let (whole, cut) = (count / 32, count % 32);
    let ones: u32 = words(&map[..4 * whole]).map(u32::count_ones).sum();
    match cut {
        0 => ones,
        _ => ones + (word(map, whole) & ((1 << cut) - 1)).count_ones(),
    }
}

#[cfg(test)]
mod tests {
    use super::*;
    use crate::tfs::{BLOCK_SIZE, MOST_BLOCKS};

    /// The bit of a block: bit b mod 32, from the least significant, of big-endian word b div 32.
    fn bit(map: &Block, block: usize) -> u32 {
        u32::from(map[block / 32 * 4 + 3 - block % 32 / 8] >> (block % 8) & 1)
    }

    /// Counts bit by bit and compares at every number of blocks.
    fn assert_counted(map: &Block) {
        let mut ones = 0;
        for count in 0..MOST_BLOCKS {
            assert_eq!(ones_below(map, count), ones, "{count}");
            ones += bit(map, count);
        }
        assert_eq!(ones_below(map, MOST_BLOCKS), ones);
    }

    /// Noise from a linear congruential generator.
    fn noise(state: &mut u64) -> u8 {
        *state = state.wrapping_mul(0x5851_F42D_4C95_7F2D).wrapping_add(1);
        (*state >> 56) as u8
    }

    #[test]
    fn the_count_is_that_of_the_bits_at_every_number_of_blocks() {
        for byte in [0x00, 0xFF, 0x55, 0xAA, 0x01, 0x80] {
            assert_counted(&[byte; BLOCK_SIZE]);
        }
        let mut state = 1;
        for _ in 0..100 {
            assert_counted(&std::array::from_fn(|_| noise(&mut state)));
        }
    }
}
