//! A file header and what it must satisfy by itself.

/// The type of an entry.
#[derive(Clone, Copy, Debug, PartialEq, Eq)]
pub enum FileType {
    /// Another name of the entry at spec.info.
    HardLink = 0,
    /// A list of entries that starts at spec.info.
    Directory = 1,
    /// A file with content.
    RegularFile = 2,
    /// A path as content.
    SymbolicLink = 3,
    /// A block device with its numbers in spec.info.
    BlockDevice = 4,
    /// A character device with its numbers in spec.info.
    CharDevice = 5,
    /// A socket.
    Socket = 6,
    /// A named pipe.
    Fifo = 7,
}

impl FileType {
    const ALL: [Self; 8] = [
        Self::HardLink,
        Self::Directory,
        Self::RegularFile,
        Self::SymbolicLink,
        Self::BlockDevice,
        Self::CharDevice,
        Self::Socket,
        Self::Fifo,
    ];

    /// Gives the type that the low three bits of a number stand for.
    pub const fn from_bits(bits: u32) -> Self {
        Self::ALL[(bits & 7) as usize]
    }

    /// Tells whether entries of this type have content.
    pub const fn has_content(self) -> bool {
        matches!(self, Self::RegularFile | Self::SymbolicLink)
    }

    const fn needs_zero_info(self) -> bool {
        matches!(
            self,
            Self::RegularFile | Self::SymbolicLink | Self::Socket | Self::Fifo
        )
    }
}

pub(super) fn word(image: &[u8], at: usize) -> u32 {
    image[at..]
        .first_chunk()
        .map_or(0, |bytes| u32::from_be_bytes(*bytes))
}

pub(super) fn sum(bytes: &[u8]) -> u32 {
    let (words, _) = bytes.as_chunks();
    words
        .iter()
        .fold(0, |sum, word| sum.wrapping_add(u32::from_be_bytes(*word)))
}

/// The length of a zero-ended name at the start of `bytes` and of the 16-byte units it fills.
pub(super) fn name_extent(bytes: &[u8]) -> Option<(usize, usize)> {
    let length = bytes.iter().position(|&byte| byte == 0)?;
    Some((length, (length + 1).next_multiple_of(16)))
}

/// A header that fits below the bound of its list.
#[derive(Clone, Copy)]
pub(super) struct Header<'a> {
    pub(super) at: u32,
    tagged: u32,
    pub(super) info: u32,
    pub(super) size: u32,
    pub(super) name: &'a [u8],
    /// Where the content starts.
    pub(super) data: u32,
    /// Where the padded content ends.
    pub(super) end: u32,
}

impl<'a> Header<'a> {
    /// Decodes the header at an offset, or gives nothing if it does not end below the bound.
    pub(super) fn decode(image: &'a [u8], at: u32, bound: u32) -> Option<Self> {
        let start = at as usize;
        let part = image.get(start..bound as usize)?;
        let (fixed, behind) = part.split_first_chunk::<16>()?;
        let (length, padded) = name_extent(behind)?;
        let data = u64::from(at) + 16 + padded as u64;
        let size = word(fixed, 8);
        let end = data + u64::from(size).next_multiple_of(16);
        if end > u64::from(bound) {
            return None;
        }
        Some(Self {
            at,
            tagged: word(fixed, 0),
            info: word(fixed, 4),
            size,
            name: &behind[..length],
            data: data as u32,
            end: end as u32,
        })
    }

    /// Decodes the header at an offset and applies rule 26.
    pub(super) fn sound(image: &'a [u8], at: u32, bound: u32) -> Option<Self> {
        let header = Self::decode(image, at, bound)?;
        let file_type = header.file_type();
        let sound = !header.name.is_empty()
            && (header.info == 0 || !file_type.needs_zero_info())
            && (header.size == 0 || file_type.has_content())
            && sum(&image[at as usize..header.data as usize]) == 0;
        sound.then_some(header)
    }

    pub(super) fn file_type(&self) -> FileType {
        FileType::from_bits(self.tagged)
    }

    pub(super) fn executable(&self) -> bool {
        self.tagged & 8 != 0
    }

    /// The offset of the next header, or 0.
    pub(super) fn next(&self) -> u32 {
        self.tagged & !15
    }

    /// Tells whether this is a directory named "." or "..".
    pub(super) fn is_dot(&self) -> bool {
        self.file_type() == FileType::Directory && matches!(self.name, b"." | b"..")
    }

    /// Tells whether rule 29 applies to this header.
    pub(super) fn points_elsewhere(&self) -> bool {
        self.file_type() == FileType::HardLink || self.is_dot()
    }

    /// The first header of the list below this entry, or 0.
    pub(super) fn first(&self) -> u32 {
        if self.file_type() == FileType::Directory && !self.is_dot() {
            self.info
        } else {
            0
        }
    }
}
