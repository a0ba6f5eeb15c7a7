//! The headers of an accepted image, in the order of the walk.
//!
//! The check is that of the proved library, once for the whole image. What an accepted image makes
//! sure of is tested all the same, so that a mistake ends with a message.

/// The greatest depth of a list in an accepted image.
const DEEPEST: usize = 8;

/// The types of entries.
#[derive(Clone, Copy, Debug, PartialEq, Eq)]
pub enum FileType {
    HardLink,
    Directory,
    RegularFile,
    SymbolicLink,
    BlockDevice,
    CharDevice,
    Socket,
    Fifo,
}

impl FileType {
    fn of(first: u32) -> Self {
        match first % 8 {
            0 => Self::HardLink,
            1 => Self::Directory,
            2 => Self::RegularFile,
            3 => Self::SymbolicLink,
            4 => Self::BlockDevice,
            5 => Self::CharDevice,
            6 => Self::Socket,
            _ => Self::Fifo,
        }
    }

    /// The type in a word.
    pub fn word(self) -> &'static str {
        match self {
            Self::HardLink => "hardlink",
            Self::Directory => "directory",
            Self::RegularFile => "file",
            Self::SymbolicLink => "symlink",
            Self::BlockDevice => "block",
            Self::CharDevice => "char",
            Self::Socket => "socket",
            Self::Fifo => "fifo",
        }
    }
}

/// A header and the name after it.
#[derive(Clone, Copy)]
pub struct Header<'a> {
    /// Its offset in the image.
    pub at: u32,
    pub file_type: FileType,
    pub executable: bool,
    /// spec.info: a directory's first header, a hard link's target, a device's numbers.
    pub info: u32,
    pub size: u32,
    /// The offset of the next header of the list, or 0.
    next: u32,
    pub name: &'a [u8],
}

impl<'a> Header<'a> {
    /// Reads the header at an offset, if there is a whole one.
    pub fn read(image: &'a [u8], at: u32) -> Option<Self> {
        let first = word(image, at as usize)?;
        Some(Self {
            at,
            file_type: FileType::of(first),
            executable: first & 8 != 0,
            info: word(image, at as usize + 4)?,
            size: word(image, at as usize + 8)?,
            next: first & !15,
            name: zero_ended(image, at as usize + 16)?,
        })
    }

    /// Whether the name is "." or "..".
    pub fn is_dot(&self) -> bool {
        matches!(self.name, b"." | b"..")
    }

    /// The major and minor number of a device.
    pub fn device(&self) -> [u32; 2] {
        [self.info >> 16, self.info & 0xffff]
    }

    /// The bytes after the padded name.
    pub fn content(&self, image: &'a [u8]) -> Option<&'a [u8]> {
        let start = self.at as usize + 16 + padded(self.name);
        image.get(start..start + self.size as usize)
    }

    /// The first header of the entry's own list, or 0; directories "." and ".." have none.
    fn list(&self) -> u32 {
        if self.file_type == FileType::Directory && !self.is_dot() {
            self.info
        } else {
            0
        }
    }
}

/// The walk: an entry, its list, the next entry. It ends at the first header that cannot be read.
pub struct Walk<'a> {
    image: &'a [u8],
    /// The header to visit next in each open list, 0 at a list's end; the last is the deepest.
    lists: Vec<u32>,
    /// The offset of the header that was visited last: each one lies after it.
    last: u32,
}

impl<'a> Walk<'a> {
    /// Starts in the root list.
    pub fn new(image: &'a [u8]) -> Self {
        let full = word(image, 8).map_or(0, |size| size as usize);
        let image = &image[..full.min(image.len())];
        let root = zero_ended(image, 16).map_or(0, |name| 16 + padded(name));
        let first = if root < image.len() { root as u32 } else { 0 };
        Self {
            image,
            lists: vec![first],
            last: 0,
        }
    }

    /// Leaves out the list of the directory that was visited last.
    pub fn skip_list(&mut self, depth: usize) {
        self.lists.truncate(depth);
    }

    fn visit(&mut self, at: u32) -> Option<Header<'a>> {
        let header = Header::read(self.image, at).filter(|_| at > self.last)?;
        self.last = at;
        *self.lists.last_mut()? = header.next;
        if header.list() != 0 {
            self.lists.push(header.list());
        }
        (self.lists.len() <= DEEPEST).then_some(header)
    }
}

impl<'a> Iterator for Walk<'a> {
    /// The depth of a list, 1 for the root, and a header of it; or the offset of one that cannot be read.
    type Item = Result<(usize, Header<'a>), u32>;

    fn next(&mut self) -> Option<Self::Item> {
        while self.lists.last() == Some(&0) {
            self.lists.pop();
        }
        let (at, depth) = (*self.lists.last()?, self.lists.len());
        let visited = self.visit(at);
        if visited.is_none() {
            self.lists.clear();
        }
        Some(visited.map(|header| (depth, header)).ok_or(at))
    }
}

fn word(image: &[u8], at: usize) -> Option<u32> {
    let word = image.get(at..at + 4)?;
    Some(u32::from_be_bytes([word[0], word[1], word[2], word[3]]))
}

fn zero_ended(image: &[u8], at: usize) -> Option<&[u8]> {
    let bytes = image.get(at..)?;
    let length = bytes.iter().position(|&byte| byte == 0)?;
    Some(&bytes[..length])
}

/// The length of a name with its zero and its padding.
fn padded(name: &[u8]) -> usize {
    (name.len() + 1).next_multiple_of(16)
}
