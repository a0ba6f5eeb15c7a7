//! The volumes that are timed.

use generate::tfs::{leftovers, volume_with_files, Volume};
use generate::Random;
use reference::tfs::{self, BLOCK_SIZE, LARGEST_FILE, MOST_BLOCKS, SLOTS};

/// The sizes of seven files; a file of the largest size comes to them.
const TYPICAL: [u32; 7] = [1_000, 200, 4_096, 12_000, 512, 30_000, 100];

/// Volumes of 2 MiB with a file of the largest size.
#[derive(Clone, Copy)]
pub struct Kind {
    /// What they are called in the tables.
    pub title: &'static str,
    /// The name of the file.
    pub name: &'static [u8],
    /// Makes one from a seed.
    pub make: fn(u64) -> Vec<u8>,
}

/// With no other file.
pub const ALONE: Kind = Kind {
    title: "only this file",
    name: b"F0",
    make: |_| with_files(MOST_BLOCKS, &[LARGEST_FILE]),
};

/// With no other file, and its blocks anywhere. Behind the volume there are as many bytes.
pub const SCATTERED: Kind = Kind {
    title: "scattered blocks",
    name: b"F0",
    make: |seed| {
        let mut image = with_files_anywhere(MOST_BLOCKS, &[LARGEST_FILE], seed);
        image.resize(image.len() + LARGEST_FILE as usize, 0);
        image
    },
};

/// With seven others, and with leftovers behind every name and in all of every free slot.
pub const LEFTOVERS: Kind = Kind {
    title: "8 files and leftovers",
    name: b"F7",
    make: |_| {
        let mut image = with_typical();
        fill_leftovers(&mut image, b'x');
        image
    },
};

/// All kinds without leftovers.
pub const WITH_DATA: [Kind; 4] = [
    ALONE,
    Kind {
        title: "8 files",
        name: b"F7",
        make: |_| with_typical(),
    },
    Kind {
        title: "25 largest files",
        name: b"F24",
        make: |_| with_files(MOST_BLOCKS, &[LARGEST_FILE; SLOTS]),
    },
    SCATTERED,
];

/// An empty volume of so many blocks.
pub fn empty(blocks: usize) -> Vec<u8> {
    let mut image = vec![0; blocks * BLOCK_SIZE];
    tfs::format(&mut image, b"BENCH").expect("format");
    image
}

/// A volume with files of these sizes, named by their number.
pub fn with_files(blocks: usize, sizes: &[u32]) -> Vec<u8> {
    let mut image = empty(blocks);
    for (number, size) in sizes.iter().enumerate() {
        let name = format!("F{number}");
        tfs::create(&mut image, name.as_bytes(), *size).expect("create");
    }
    image
}

/// The same with the blocks of the files anywhere.
pub fn with_files_anywhere(blocks: usize, sizes: &[u32], seed: u64) -> Vec<u8> {
    let image = volume_with_files(&mut Random::new(seed), blocks, sizes).image;
    tfs::check(&image).expect("check");
    image
}

/// A volume of 64 KiB with seven files.
pub fn small() -> Vec<u8> {
    with_files(128, &TYPICAL)
}

/// A volume of 2 MiB with seven files and one of the largest size.
fn with_typical() -> Vec<u8> {
    with_files(MOST_BLOCKS, &[&TYPICAL[..], &[LARGEST_FILE]].concat())
}

/// The volumes of 2 MiB for requests that move no content.
pub fn plain() -> [(&'static str, Vec<u8>); 3] {
    [
        ("empty", empty(MOST_BLOCKS)),
        ("8 files", with_typical()),
        (
            "25 largest files",
            with_files(MOST_BLOCKS, &[LARGEST_FILE; SLOTS]),
        ),
    ]
}

/// Fills all leftovers with a byte.
fn fill_leftovers(image: &mut [u8], byte: u8) {
    for slot in 0..SLOTS {
        let behind = leftovers(image, slot);
        image[behind].fill(byte);
    }
}

/// Where in an image a copy begins that stands for a transfer of a file: at the content if its blocks stand one after
/// another, or else behind the volume.
pub fn copied_from(image: &[u8], name: &[u8]) -> usize {
    let mut volume = Volume {
        image: Vec::new(),
        blocks: MOST_BLOCKS,
        files: Vec::new(),
        gone: Vec::new(),
    };
    volume.look(image);
    let file = volume.files.iter().find(|file| file.name == name);
    let blocks = &file.expect("the file").blocks;
    let solid = blocks.windows(2).all(|two| two[0] + 1 == two[1]);
    match solid {
        true => blocks[0] as usize * BLOCK_SIZE,
        false => MOST_BLOCKS * BLOCK_SIZE,
    }
}

#[cfg(test)]
mod tests {
    use super::*;

    #[test]
    fn a_copy_begins_at_the_content_or_behind_the_volume() {
        let mut image = with_files(64, &[512, 1_000]);
        assert_eq!(copied_from(&image, b"F0"), 4 * BLOCK_SIZE);
        assert_eq!(copied_from(&image, b"F1"), 6 * BLOCK_SIZE);
        tfs::remove(&mut image, b"F0").expect("remove");
        tfs::create(&mut image, b"SPLIT", 513).expect("create");
        assert_eq!(copied_from(&image, b"F1"), 6 * BLOCK_SIZE);
        assert_eq!(copied_from(&image, b"SPLIT"), MOST_BLOCKS * BLOCK_SIZE);
    }
}
