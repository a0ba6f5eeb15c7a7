//! Volumes with a history of requests.

use reference::tfs::{self, BLOCK_SIZE, SLOTS};

use super::made::Volume;
use super::sizes::some_size;
use super::{leftovers, padding};
use crate::Random;

/// A volume that creates, removes and writes have made of noise and a format, while something
/// else may have left bytes behind names and in free slots, and padding in the map.
pub(super) fn lived(random: &mut Random, noise: Vec<u8>, blocks: usize) -> Volume {
    let mut image = noise;
    let length = random.between(0, 15);
    let label = random.name(length);
    let formatted = tfs::format(&mut image, &label);
    debug_assert_eq!(formatted, Ok(()));
    let mut made = Volume::empty(blocks);
    if !random.one_in(3) {
        padding::put(random, &mut image, blocks);
    }
    let leaving = !random.one_in(3);
    for _ in 0..random.between(2, 40) {
        if leaving && random.one_in(4) {
            leftovers::put(random, &mut image, &made.files, &made.gone);
        }
        if made.files.is_empty() || random.below(5) < 2 {
            create(random, &mut made, &mut image);
        } else if random.one_in(2) {
            remove(random, &mut made, &mut image);
        } else {
            write(random, &made, &mut image);
        }
    }
    random.fill(&mut image[2 * BLOCK_SIZE + 20 * SLOTS..3 * BLOCK_SIZE]);
    Volume { image, ..made }
}

/// Creates a file, at times with the name of one that is gone.
fn create(random: &mut Random, made: &mut Volume, image: &mut [u8]) {
    let length = random.between(1, 15);
    let name = match made.gone.last() {
        Some(file) if random.one_in(3) => file.name.clone(),
        _ => random.name(length),
    };
    let size = some_size(random, (made.blocks - 3) * BLOCK_SIZE / 2) as u32;
    if let Ok(inode) = tfs::create(image, &name, size) {
        made.created(image, &name, inode, size);
    }
}

fn remove(random: &mut Random, made: &mut Volume, image: &mut [u8]) {
    let name = made.files[random.below(made.files.len())].name.clone();
    let removed = tfs::remove(image, &name);
    debug_assert_eq!(removed, Ok(()));
    made.removed(&name);
}

fn write(random: &mut Random, made: &Volume, image: &mut [u8]) {
    let name = &made.files[random.below(made.files.len())].name;
    let length = random.below(1500);
    let bytes = random.bytes(length);
    // An offset behind the end is refused, which is part of a history too.
    let _ = tfs::write(image, name, random.below(1500) as u32, &bytes);
}
