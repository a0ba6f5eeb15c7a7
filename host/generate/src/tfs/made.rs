//! What stands in a volume.

use reference::tfs::{BLOCK_SIZE, SLOTS};

/// A file of a generated volume.
#[derive(Clone, Debug, PartialEq, Eq)]
pub struct File {
    /// The slot of the directory that holds the file.
    pub slot: usize,
    /// The name up to its zero.
    pub name: Vec<u8>,
    /// The inode number.
    pub inode: u32,
    /// The size in bytes.
    pub size: u32,
    /// The numbers of the content blocks in order.
    pub blocks: Vec<u32>,
}

/// A generated volume and what stands in it.
#[derive(Clone, Debug)]
pub struct Volume {
    /// The bytes of the image.
    pub image: Vec<u8>,
    /// The number of blocks that count.
    pub blocks: usize,
    /// The files in the order of their slots.
    pub files: Vec<File>,
    /// The files that were removed, as they were then; their names may stand again.
    pub gone: Vec<File>,
}

impl Volume {
    /// A volume of so many blocks without files, and as yet without an image.
    pub(crate) fn empty(blocks: usize) -> Self {
        Self {
            image: Vec::new(),
            blocks,
            files: Vec::new(),
            gone: Vec::new(),
        }
    }

    /// The lowest slot without a file, which a create takes.
    pub(crate) fn free_slot(&self) -> Option<usize> {
        let used = |slot: &usize| self.files.iter().any(|file| file.slot == *slot);
        (0..SLOTS).find(|slot| !used(slot))
    }

    /// The number of blocks that belong to no file.
    pub(crate) fn free_blocks(&self) -> usize {
        let owned: usize = self.files.iter().map(|file| 1 + file.blocks.len()).sum();
        self.blocks.saturating_sub(3 + owned)
    }

    /// Takes note of a file that was created; the image is the one after that.
    pub fn created(&mut self, image: &[u8], name: &[u8], inode: u32, size: u32) {
        self.files.push(File {
            slot: self.free_slot().unwrap_or(SLOTS),
            name: name.to_vec(),
            inode,
            size,
            blocks: inode_words(image, inode)
                .skip(1)
                .take(blocks_of(size))
                .collect(),
        });
        self.files.sort_by_key(|file| file.slot);
    }

    /// Takes note of all files of an image that breaks none of the first six rules, after requests
    /// that were not noted.
    pub fn look(&mut self, image: &[u8]) {
        let slots = image[2 * BLOCK_SIZE..]
            .as_chunks::<20>()
            .0
            .iter()
            .take(SLOTS);
        let file = |(slot, raw): (usize, &[u8; 20])| {
            let inode = u32::from_be_bytes(*raw.first_chunk()?);
            let size = inode_words(image, inode).next().filter(|_| inode != 0)?;
            let name = raw[4..].split(|&byte| byte == 0).next()?;
            Some(File {
                slot,
                name: name.to_vec(),
                inode,
                size,
                blocks: inode_words(image, inode)
                    .skip(1)
                    .take(blocks_of(size))
                    .collect(),
            })
        };
        let files: Vec<File> = slots.enumerate().filter_map(file).collect();
        let gone = self.files.extract_if(.., |file| !files.contains(file));
        self.gone.extend(gone);
        self.files = files;
    }

    /// Takes note of a file that was removed.
    pub fn removed(&mut self, name: &[u8]) {
        let removed = self.files.extract_if(.., |file| file.name == name);
        self.gone.extend(removed);
    }

    /// Takes note of a format.
    pub fn formatted(&mut self) {
        self.gone.append(&mut self.files);
    }
}

fn inode_words(image: &[u8], inode: u32) -> impl Iterator<Item = u32> + '_ {
    let block = image[inode as usize * BLOCK_SIZE..].as_chunks().0.iter();
    block.map(|word| u32::from_be_bytes(*word))
}

fn blocks_of(size: u32) -> usize {
    (size as usize).div_ceil(BLOCK_SIZE)
}
