//! Padding of the map: its bits from N on. The rules ignore and keep them.

use reference::tfs::{BLOCK_SIZE, MOST_BLOCKS};

use super::made::Volume;
use super::volume::map_byte;
use crate::Random;

/// Tells of an image with so many blocks whether padding is set in the word that N cuts, and
/// whether in a word that starts at N or after it.
pub fn padding(image: &[u8], blocks: usize) -> [bool; 2] {
    let set = |block: usize| image[BLOCK_SIZE + map_byte(block)] >> (block % 8) & 1 == 1;
    let next = blocks.next_multiple_of(32);
    [(blocks..next).any(set), (next..MOST_BLOCKS).any(set)]
}

/// Puts other padding into the map of a volume.
pub fn put_padding(random: &mut Random, volume: &mut Volume) {
    put(random, &mut volume.image, volume.blocks);
}

/// The same for an image with so many blocks: noise, all ones, ones up to the next word's start or
/// from it on, or the lowest bit alone.
pub(super) fn put(random: &mut Random, image: &mut [u8], blocks: usize) {
    let way = random.below(5);
    let next = blocks.next_multiple_of(32);
    for block in blocks..MOST_BLOCKS {
        let set = match way {
            0 => random.one_in(2),
            1 => true,
            2 => block < next,
            3 => block >= next,
            _ => block == blocks,
        };
        let byte = &mut image[BLOCK_SIZE + map_byte(block)];
        *byte = *byte & !(1 << (block % 8)) | u8::from(set) << (block % 8);
    }
}
