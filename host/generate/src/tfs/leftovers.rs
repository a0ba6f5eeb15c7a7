//! Leftovers: bytes of a slot behind the zero that ends its name. The rules ignore and keep them.

use std::ops::Range;

use reference::tfs::{BLOCK_SIZE, SLOTS};

use super::made::{File, Volume};
use crate::Random;

/// Tells where in an image the leftovers of a slot may lie; nowhere if its name has no end.
pub fn leftovers(image: &[u8], slot: usize) -> Range<usize> {
    let start = 2 * BLOCK_SIZE + 20 * slot + 4;
    let zero = image[start..start + 16].iter().position(|&byte| byte == 0);
    start + zero.map_or(16, |zero| zero + 1)..start + 16
}

/// Tells whether a byte of the leftovers of a slot is not zero.
pub fn has_leftovers(image: &[u8], slot: usize) -> bool {
    image[leftovers(image, slot)].iter().any(|&byte| byte != 0)
}

/// Puts leftovers into slots of a consistent volume, used and free ones, over those it has.
pub fn put_leftovers(random: &mut Random, volume: &mut Volume) {
    put(random, &mut volume.image, &volume.files, &volume.gone);
}

/// The same for an image with these files, which had those others before.
pub(super) fn put(random: &mut Random, image: &mut [u8], files: &[File], gone: &[File]) {
    let known = files.iter().chain(gone).map(|file| &file.name[..]);
    let known: Vec<&[u8]> = known.collect();
    let times = random.pick(&[1, 2, 5]);
    for slot in 0..SLOTS {
        if random.one_in(times) {
            let fresh = random.name(15);
            let old = random.choose(&known).filter(|_| random.one_in(2));
            let behind = leftovers(image, slot);
            leave(random, &mut image[behind], old.unwrap_or(&fresh));
        }
    }
}

/// Leaves noise, an old name or the end of one, or a byte at either end.
fn leave(random: &mut Random, behind: &mut [u8], old: &[u8]) {
    let tail = &old[old.len().min(16 - behind.len())..];
    match random.below(6) {
        0 => random.fill(behind),
        1 => behind.fill_with(|| random.nonzero()),
        2 => copy(behind, old),
        3 => copy(behind, tail),
        4 => copy(behind, &[random.nonzero()]),
        _ => {
            if let Some(last) = behind.last_mut() {
                *last = random.nonzero();
            }
        }
    }
}

/// Copies as many bytes as there is room for, and zeros the rest.
fn copy(room: &mut [u8], bytes: &[u8]) {
    let length = room.len().min(bytes.len());
    room.fill(0);
    room[..length].copy_from_slice(&bytes[..length]);
}
