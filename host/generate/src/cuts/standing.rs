//! What stands in an image by its bytes alone, whatever its map says.

use std::collections::{BTreeMap, BTreeSet};

use reference::tfs::{BLOCK_SIZE, MOST_BLOCKS};

use crate::tfs::{File, Volume};

/// The names and contents of an image.
pub type Contents = BTreeMap<Vec<u8>, Vec<u8>>;

/// What stands in an image that breaks none of the first six rules.
pub struct Standing {
    /// The names and contents.
    pub contents: Contents,
    /// The bits of the map, by block below N.
    bits: Vec<bool>,
    /// The blocks that files claim, and the first three.
    owned: BTreeSet<usize>,
}

impl Standing {
    /// Reads an image.
    pub fn of(image: &[u8]) -> Self {
        let block = |number: u32| &image[BLOCK_SIZE * number as usize..][..BLOCK_SIZE];
        let mut owned = BTreeSet::from([0, 1, 2]);
        let mut contents = Contents::new();
        for file in files(image) {
            let mut content: Vec<u8> = Vec::new();
            file.blocks
                .iter()
                .for_each(|number| content.extend(block(*number)));
            content.truncate(file.size as usize);
            contents.insert(file.name, content);
            let claims = file.blocks.iter().chain([&file.inode]);
            owned.extend(claims.map(|number| *number as usize));
        }
        let bit = |block: usize| {
            let word = &image[BLOCK_SIZE + block / 32 * 4..][..4];
            u32::from_be_bytes([word[0], word[1], word[2], word[3]]) >> (block % 32) & 1 == 1
        };
        let bits = (0..blocks(image)).map(bit).collect();
        Self {
            contents,
            bits,
            owned,
        }
    }

    /// The lowest block whose bit is set and that nobody claims.
    pub fn stray(&self) -> Option<usize> {
        (0..self.bits.len()).find(|block| self.bits[*block] && !self.owned.contains(block))
    }

    /// The lowest block that is owned and whose bit is not set.
    pub fn missing(&self) -> Option<usize> {
        self.owned.iter().copied().find(|block| !self.bits[*block])
    }
}

/// The number of blocks of an image.
fn blocks(image: &[u8]) -> usize {
    (image.len() / BLOCK_SIZE).min(MOST_BLOCKS)
}

/// The files of an image that breaks none of the first six rules.
fn files(image: &[u8]) -> Vec<File> {
    let mut seen = Volume::empty(blocks(image));
    seen.look(image);
    seen.files
}

/// The file of a name in such an image.
pub(super) fn file(image: &[u8], name: &[u8]) -> Option<File> {
    files(image).into_iter().find(|file| file.name == name)
}

/// The names and contents of an image that breaks none of the first six rules.
pub fn contents(image: &[u8]) -> Contents {
    Standing::of(image).contents
}
