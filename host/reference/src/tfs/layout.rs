//! Where things lie: blocks, big-endian words, names, slots, inodes and map bits.

/// The number of bytes in a block.
pub const BLOCK_SIZE: usize = 512;

/// The number of blocks beyond which an image is ignored.
pub const MOST_BLOCKS: usize = 4096;

/// The number at the start of every volume.
pub const MAGIC: u32 = 3745;

/// The number of slots in the directory.
pub const SLOTS: usize = 25;

/// The size of the largest file in bytes.
pub const LARGEST_FILE: u32 = 65_024;

pub(super) const MAP: usize = 1;
pub(super) const DIRECTORY: usize = 2;
pub(super) const FIRST_DATA: usize = 3;
pub(super) const MOST_CONTENT: usize = BLOCK_SIZE / 4 - 1;

pub(super) type Block = [u8; BLOCK_SIZE];
pub(super) type RawSlot = [u8; 20];

/// The blocks of the volume; bytes behind them cannot be reached through this.
pub(super) fn blocks(image: &[u8]) -> &[Block] {
    let (whole, _) = image.as_chunks();
    &whole[..whole.len().min(MOST_BLOCKS)]
}

pub(super) fn blocks_mut(image: &mut [u8]) -> &mut [Block] {
    let (whole, _) = image.as_chunks_mut();
    let count = whole.len().min(MOST_BLOCKS);
    &mut whole[..count]
}

pub(super) fn words(bytes: &[u8]) -> impl ExactSizeIterator<Item = u32> + '_ {
    bytes
        .as_chunks()
        .0
        .iter()
        .map(|word| u32::from_be_bytes(*word))
}

pub(super) fn word(bytes: &[u8], index: usize) -> u32 {
    u32::from_be_bytes(bytes.as_chunks().0[index])
}

pub(super) fn set_word(bytes: &mut [u8], index: usize, value: u32) {
    bytes.as_chunks_mut().0[index] = value.to_be_bytes();
}

pub(super) fn slots(directory: &Block) -> &[RawSlot] {
    directory.as_chunks().0
}

pub(super) fn slots_mut(directory: &mut Block) -> &mut [RawSlot] {
    directory.as_chunks_mut().0
}

/// A name of at most 15 bytes, none of them zero, padded with zeros to 16.
#[derive(Clone, Copy, PartialEq, Eq)]
pub(super) struct Name([u8; 16]);

impl Name {
    /// Pads a given name, which may be empty.
    pub(super) fn padded(bytes: &[u8]) -> Option<Self> {
        if bytes.len() > 15 || bytes.contains(&0) {
            return None;
        }
        let mut field = [0; 16];
        field[..bytes.len()].copy_from_slice(bytes);
        Some(Self(field))
    }

    /// Pads a given name of a file, which may not be empty.
    pub(super) fn of_file(bytes: &[u8]) -> Option<Self> {
        if bytes.is_empty() {
            return None;
        }
        Self::padded(bytes)
    }

    /// Takes the name of a file out of a slot: the bytes up to the first zero.
    fn stored(field: &[u8]) -> Option<Self> {
        let length = field.iter().position(|&byte| byte == 0)?;
        Self::of_file(&field[..length])
    }

    pub(super) fn field(&self) -> &[u8; 16] {
        &self.0
    }
}

/// A sound slot of the directory.
#[derive(Clone, Copy)]
pub(super) enum Slot {
    Free,
    Used { inode: u32, name: Name },
}

impl Slot {
    /// Decodes a slot of a volume of `count` blocks, or gives nothing if it is unsound.
    ///
    /// The bytes behind the first zero of the name are leftovers and mean nothing.
    pub(super) fn decode(raw: &RawSlot, count: usize) -> Option<Self> {
        let (inode, field) = raw.split_first_chunk::<4>()?;
        let inode = u32::from_be_bytes(*inode);
        if inode == 0 && field[0] == 0 {
            return Some(Self::Free);
        }
        if !is_data_block(inode, count) {
            return None;
        }
        let name = Name::stored(field)?;
        Some(Self::Used { inode, name })
    }

    /// Encodes a used slot.
    pub(super) fn encode(inode: u32, name: &Name) -> RawSlot {
        let mut raw = [0; 20];
        raw[..4].copy_from_slice(&inode.to_be_bytes());
        raw[4..].copy_from_slice(name.field());
        raw
    }
}

/// Tells whether a block number may be an inode or hold content.
pub(super) fn is_data_block(number: u32, count: usize) -> bool {
    (FIRST_DATA..count).contains(&(number as usize))
}

/// The number of content blocks of a file.
pub(super) fn blocks_for(size: u32) -> usize {
    size.div_ceil(BLOCK_SIZE as u32) as usize
}

/// The size that an inode gives.
pub(super) fn file_size(inode: &Block) -> u32 {
    word(inode, 0)
}

/// The numbers of the content blocks that a sound inode lists.
pub(super) fn content_numbers(inode: &Block) -> impl Iterator<Item = u32> + '_ {
    words(inode).skip(1).take(blocks_for(file_size(inode)))
}

/// A set of block numbers, laid out as the map is.
pub(super) struct BlockSet([u32; MOST_BLOCKS / 32]);

impl BlockSet {
    /// The set of the blocks that belong to no file.
    pub(super) fn fixed() -> Self {
        let mut bits = [0; MOST_BLOCKS / 32];
        bits[0] = (1 << FIRST_DATA) - 1;
        Self(bits)
    }

    /// Adds a block and tells whether it is new.
    pub(super) fn insert(&mut self, block: u32) -> bool {
        let word = &mut self.0[block as usize / 32];
        let bit = 1 << (block % 32);
        let new = *word & bit == 0;
        *word |= bit;
        new
    }

    pub(super) fn words(&self) -> impl Iterator<Item = u32> + '_ {
        self.0.iter().copied()
    }
}

/// The words of the map that say something about a volume, each with a mask of its valid bits.
pub(super) fn map_words(blocks: &[Block]) -> impl Iterator<Item = (u32, u32)> + '_ {
    let count = blocks.len();
    let used = count.div_ceil(32);
    words(&blocks[MAP])
        .take(used)
        .enumerate()
        .map(move |(index, word)| {
            let valid = count - 32 * index;
            let mask = if valid < 32 {
                (1 << valid) - 1
            } else {
                u32::MAX
            };
            (word, mask)
        })
}

/// Sets or clears the bit of a block in the map.
pub(super) fn mark(map: &mut Block, block: u32, reserved: bool) {
    let index = block as usize / 32;
    let bit = 1 << (block % 32);
    let old = word(map, index);
    set_word(map, index, if reserved { old | bit } else { old & !bit });
}
