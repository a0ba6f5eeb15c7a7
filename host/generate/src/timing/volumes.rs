//! Volumes with a timing file and without one.

use reference::tfs::{BLOCK_SIZE, LARGEST_FILE, SLOTS};

use super::arguments::some_timing;
use super::writing::encoded;
use super::{NAME, SIZE};
use crate::tfs::{any_volume, set_bit, similar, volume, File, Shape, Volume};
use crate::Random;

/// Makes a consistent volume, mostly a small one: its timing file is sound, opened, of another size
/// or absent; if absent, then often without a slot or the room for it. Beside it may stand files of
/// similar names.
pub fn timing_volume(random: &mut Random, most: usize) -> Volume {
    let mut made = without_file(random, most);
    if random.one_in(60) {
        made = volume(random, Shape::Empty, 140);
        put_timing(random, &mut made, LARGEST_FILE);
        return made;
    }
    if made.files.len() == SLOTS && random.one_in(2) {
        return made;
    }
    match random.below(10) {
        0..=2 if random.one_in(3) => {
            let left = random.pick(&[0, 1, 1, 2, 2, 3]);
            with_room_left(random, &mut made, left);
        }
        0..=2 => {}
        3..=4 => {
            let size = random.pick(&file_sizes());
            put_timing(random, &mut made, size);
        }
        _ => put_timing(random, &mut made, SIZE),
    }
    made
}

/// A volume that may have a file of a similar name, but not the timing file.
fn without_file(random: &mut Random, most: usize) -> Volume {
    let mut made = match random.below(10) {
        0..=1 => {
            let blocks = random.between(28, 80);
            volume(random, Shape::Crowded, blocks)
        }
        2 => any_volume(random, most),
        _ => {
            let blocks = random.between(8, 48);
            let shape = random.pick(&[Shape::Scattered, Shape::Lived, Shape::Lived, Shape::Empty]);
            volume(random, shape, blocks)
        }
    };
    if random.one_in(4) {
        let name = similar(random, NAME);
        let bytes = encoded(&some_timing(random, &[]));
        put_file(random, &mut made, &name, SIZE, &bytes);
    }
    made
}

/// Puts the timing file into a volume; once in three times its lid was opened.
fn put_timing(random: &mut Random, made: &mut Volume, size: u32) {
    let mut bytes = encoded(&some_timing(random, &[]));
    if random.one_in(3) {
        bytes[..4].fill(0);
    }
    put_file(random, made, NAME, size, &bytes);
}

/// Sizes that are not the file's.
pub(super) fn file_sizes() -> [u32; 12] {
    [0, 1, 4, 8, 63, 63, 65, 65, 128, 512, 513, 576]
}

/// Puts a file into a consistent volume, into any free slot and blocks, or in the place of a file
/// with as many blocks; with these first bytes, as far as it has room for them. Gives whether it did.
pub fn put_file(
    random: &mut Random,
    made: &mut Volume,
    name: &[u8],
    size: u32,
    bytes: &[u8],
) -> bool {
    if made.files.iter().any(|file| file.name == name) {
        return false;
    }
    let turned = random.one_in(2) && turn(random, made, name, size);
    if !turned && !insert(random, made, name, size) && !turn(random, made, name, size) {
        return false;
    }
    let file = made.files.iter().find(|file| file.name == name);
    let start = file.and_then(|file| file.blocks.first());
    if let Some(start) = start {
        let count = bytes.len().min(size as usize);
        let content = &mut made.image[BLOCK_SIZE * *start as usize..];
        content[..count].copy_from_slice(&bytes[..count]);
    }
    true
}

/// Fills a volume with one more file until so many blocks are free, if it can.
fn with_room_left(random: &mut Random, made: &mut Volume, left: usize) {
    let more = made.free_blocks().checked_sub(left + 1);
    if let Some(content) = more.filter(|content| content * BLOCK_SIZE <= LARGEST_FILE as usize) {
        insert(random, made, b"filler", (content * BLOCK_SIZE) as u32);
    }
}

/// Enters a new file into a free slot, in front of the leftovers that stand there.
fn insert(random: &mut Random, made: &mut Volume, name: &[u8], size: u32) -> bool {
    let used = |slot: &usize| made.files.iter().any(|file| file.slot == *slot);
    let slots: Vec<usize> = (0..SLOTS).filter(|slot| !used(slot)).collect();
    let mut free = unowned(made);
    random.shuffle(&mut free);
    let needed = 1 + (size as usize).div_ceil(BLOCK_SIZE);
    let Some(slot) = random.choose(&slots).filter(|_| needed <= free.len()) else {
        return false;
    };
    free.truncate(needed);
    free.iter()
        .for_each(|block| set_bit(&mut made.image, *block));
    let words = [&[size], &free[1..]].concat();
    let inode = &mut made.image[BLOCK_SIZE * free[0] as usize..][..BLOCK_SIZE];
    inode.fill(0);
    for (room, word) in inode.chunks_mut(4).zip(words) {
        room.copy_from_slice(&word.to_be_bytes());
    }
    made.files.push(File {
        slot,
        name: name.to_vec(),
        inode: free[0],
        size,
        blocks: free[1..].to_vec(),
    });
    made.files.sort_by_key(|file| file.slot);
    enter(&mut made.image, slot, free[0], name);
    true
}

/// Gives a name and a size to a file that has as many blocks as that size needs.
fn turn(random: &mut Random, made: &mut Volume, name: &[u8], size: u32) -> bool {
    let needed = (size as usize).div_ceil(BLOCK_SIZE);
    let alike = |index: &usize| made.files[*index].blocks.len() == needed;
    let alike: Vec<usize> = (0..made.files.len()).filter(alike).collect();
    let Some(index) = random.choose(&alike) else {
        return false;
    };
    let file = &mut made.files[index];
    (file.name, file.size) = (name.to_vec(), size);
    let inode = BLOCK_SIZE * file.inode as usize;
    made.image[inode..inode + 4].copy_from_slice(&size.to_be_bytes());
    enter(&mut made.image, file.slot, file.inode, name);
    true
}

/// Writes an inode number and a name with its zero into a slot.
fn enter(image: &mut [u8], slot: usize, inode: u32, name: &[u8]) {
    let slot = &mut image[2 * BLOCK_SIZE + 20 * slot..][..20];
    slot[..4].copy_from_slice(&inode.to_be_bytes());
    slot[4..4 + name.len()].copy_from_slice(name);
    slot[4 + name.len()] = 0;
}

/// The blocks that belong to no file.
fn unowned(made: &Volume) -> Vec<u32> {
    let owned = |block: &u32| {
        let mut files = made.files.iter();
        files.any(|file| file.inode == *block || file.blocks.contains(block))
    };
    (3..made.blocks as u32)
        .filter(|block| !owned(block))
        .collect()
}
