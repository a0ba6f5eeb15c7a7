//! Consistent TFS volumes.

use reference::tfs::{BLOCK_SIZE, LARGEST_FILE, MAGIC, MOST_BLOCKS, SLOTS};

use super::leftovers;
use super::lived::lived;
use super::made::{File, Volume};
use super::names::similar;
use super::padding;
use super::sizes::some_size;
use crate::Random;

/// What a volume is to be filled with.
#[derive(Clone, Copy, Debug, PartialEq, Eq)]
pub enum Shape {
    /// No files.
    Empty,
    /// Some files in scattered slots and blocks, with room left.
    Scattered,
    /// Files in scattered blocks until hardly a block is left, or the last has the largest size.
    Full,
    /// A file in every slot, as far as there are blocks.
    Crowded,
    /// A file of the largest size, as far as there are blocks, and some others.
    Largest,
    /// What a formatted volume has become by creates, removes and writes.
    Lived,
}

/// Makes a consistent volume of a shape with a number of blocks from 3 on.
pub fn volume(random: &mut Random, shape: Shape, blocks: usize) -> Volume {
    let blocks = blocks.clamp(3, MOST_BLOCKS);
    if shape == Shape::Lived {
        let noise = canvas(random, blocks);
        return lived(random, noise, blocks);
    }
    let files = plan(random, shape, blocks);
    let mut image = canvas(random, blocks);
    draw(random, &mut image, blocks, &files);
    if !random.one_in(3) {
        leftovers::put(random, &mut image, &files, &[]);
    }
    if random.one_in(2) {
        padding::put(random, &mut image, blocks);
    }
    Volume {
        image,
        blocks,
        files,
        gone: Vec::new(),
    }
}

/// Makes a consistent volume of any shape, mostly with few blocks and at most `most`.
pub fn any_volume(random: &mut Random, most: usize) -> Volume {
    let shapes = [
        Shape::Scattered,
        Shape::Lived,
        Shape::Full,
        Shape::Scattered,
        Shape::Crowded,
        Shape::Lived,
        Shape::Empty,
    ];
    let shape = random.pick(&shapes);
    let most = most.clamp(3, MOST_BLOCKS);
    let usual = match random.below(40) {
        0 => most,
        1..=2 => random.between(3, most),
        3..=9 => random.between(24, 68),
        10..=14 => random.between(3, 4),
        15..=17 => 32 * random.between(1, 4),
        _ => random.between(3, 24),
    };
    if most >= 131 && random.one_in(50) {
        let blocks = random.between(131, most.min(160));
        return volume(random, Shape::Largest, blocks);
    }
    volume(random, shape, usual.min(most))
}

/// Makes a consistent volume with files F0, F1 and so on of these sizes, which there must be room
/// for. Their inodes and content have blocks anywhere; all that is ignored is zero.
pub fn volume_with_files(random: &mut Random, blocks: usize, sizes: &[u32]) -> Volume {
    let mut free: Vec<u32> = (3..blocks as u32).collect();
    random.shuffle(&mut free);
    let mut take = |count: usize| free.split_off(free.len() - count);
    let file = |(slot, &size): (usize, &u32)| File {
        slot,
        name: format!("F{slot}").into_bytes(),
        inode: take(1)[0],
        size,
        blocks: take((size as usize).div_ceil(BLOCK_SIZE)),
    };
    let files: Vec<File> = sizes.iter().enumerate().map(file).collect();
    let mut image = vec![0; blocks * BLOCK_SIZE];
    draw(random, &mut image, blocks, &files);
    Volume {
        image,
        blocks,
        files,
        gone: Vec::new(),
    }
}

/// Bytes of a length that gives so many blocks, filled in one of several ways.
fn canvas(random: &mut Random, blocks: usize) -> Vec<u8> {
    let behind = if blocks == MOST_BLOCKS {
        random.pick(&[0, 1, 511, 512, 1000, 2048])
    } else {
        random.pick(&[0, 0, 0, 1, 17, 255, 511])
    };
    let length = blocks * BLOCK_SIZE + behind;
    match random.below(6) {
        0 => vec![0; length],
        1 => vec![0xFF; length],
        _ => random.bytes(length),
    }
}

/// Draws the files of a volume; each takes its blocks out of those that are left.
fn plan(random: &mut Random, shape: Shape, blocks: usize) -> Vec<File> {
    let mut free = mixed(random, 3..blocks as u32, 4);
    let mut slots = mixed(random, 0..SLOTS, 3);
    slots.truncate(file_count(random, shape));
    let mut files: Vec<File> = Vec::new();
    for (index, &slot) in slots.iter().enumerate() {
        let Some(inode) = free.pop() else {
            break;
        };
        let later = slots.len() - 1 - index;
        let most = share(shape, free.len(), later);
        let size = match shape {
            Shape::Largest if index == 0 => most,
            Shape::Full if later == 0 => most - random.below(most.min(BLOCK_SIZE) + 1) / 2,
            _ => some_size(random, most),
        };
        let content = free.split_off(free.len() - size.div_ceil(BLOCK_SIZE));
        let name = fresh_name(random, &files);
        files.push(File {
            slot,
            name,
            inode,
            size: size as u32,
            blocks: content,
        });
    }
    files.sort_by_key(|file| file.slot);
    files
}

/// Numbers in a random order, but once in `times` as they are.
fn mixed<T>(random: &mut Random, numbers: impl Iterator<Item = T>, times: usize) -> Vec<T> {
    let mut numbers: Vec<T> = numbers.collect();
    if !random.one_in(times) {
        random.shuffle(&mut numbers);
    }
    numbers
}

/// The number of files to aim at.
fn file_count(random: &mut Random, shape: Shape) -> usize {
    match shape {
        Shape::Empty => 0,
        Shape::Crowded => SLOTS,
        Shape::Full => random.between(1, 8),
        _ => random.between(1, 5),
    }
}

/// The greatest size of a file where so many blocks are free and so many files come later.
fn share(shape: Shape, free: usize, later: usize) -> usize {
    let blocks = match shape {
        Shape::Crowded => free.saturating_sub(later).min(2),
        Shape::Full if later > 0 => free.saturating_sub(2),
        Shape::Scattered => free.min(30),
        _ => free,
    };
    (blocks * BLOCK_SIZE).min(LARGEST_FILE as usize)
}

/// A name that no other file has, at times one similar to that of another.
fn fresh_name(random: &mut Random, files: &[File]) -> Vec<u8> {
    loop {
        let length = if random.one_in(3) {
            15
        } else {
            random.between(1, 15)
        };
        let name = match files.last() {
            Some(other) if random.one_in(4) => similar(random, &other.name),
            _ => random.name(length),
        };
        if files.iter().all(|file| file.name != name) {
            return name;
        }
    }
}

/// Writes a volume over noise and leaves the noise wherever the rules ignore it.
fn draw(random: &mut Random, image: &mut [u8], blocks: usize, files: &[File]) {
    image[..4].copy_from_slice(&MAGIC.to_be_bytes());
    let end = random.between(0, 15);
    let label = random.name(end);
    image[4..4 + end].copy_from_slice(&label);
    image[4 + end] = 0;

    let owned = files
        .iter()
        .flat_map(|file| std::iter::once(&file.inode).chain(&file.blocks));
    let map = &mut image[BLOCK_SIZE..2 * BLOCK_SIZE];
    for block in 0..blocks {
        map[map_byte(block)] &= !(1 << (block % 8));
    }
    for block in [0, 1, 2].iter().chain(owned) {
        map[map_byte(*block as usize)] |= 1 << (block % 8);
    }

    let directory = 2 * BLOCK_SIZE;
    image[directory..directory + 20 * SLOTS].fill(0);
    for file in files {
        let slot = directory + 20 * file.slot;
        image[slot..slot + 4].copy_from_slice(&file.inode.to_be_bytes());
        image[slot + 4..slot + 4 + file.name.len()].copy_from_slice(&file.name);
        let inode = &mut image[file.inode as usize * BLOCK_SIZE..][..BLOCK_SIZE];
        inode.fill(0);
        inode[..4].copy_from_slice(&file.size.to_be_bytes());
        for (index, number) in file.blocks.iter().enumerate() {
            inode[4 + 4 * index..8 + 4 * index].copy_from_slice(&number.to_be_bytes());
        }
    }
}

/// Sets the bit of a block in an image.
pub(crate) fn set_bit(image: &mut [u8], block: u32) {
    image[BLOCK_SIZE + map_byte(block as usize)] |= 1 << (block % 8);
}

/// The byte of the map that holds the bit of a block.
pub(super) fn map_byte(block: usize) -> usize {
    4 * (block / 32) + 3 - block % 32 / 8
}
