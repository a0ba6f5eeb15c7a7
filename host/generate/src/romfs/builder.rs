//! romfs images put together from their entries.

use reference::romfs::FileType;

use super::words::{seal_header, seal_volume, set, set_next};

/// An entry of a generated image.
#[derive(Clone, Debug)]
pub struct Placed {
    /// The offset of the header.
    pub at: u32,
    /// The name without the zeros behind it.
    pub name: Vec<u8>,
    /// The type.
    pub file_type: FileType,
    /// The depth of the list that the entry stands in, 1 for the root.
    pub depth: usize,
    /// Where the content starts.
    pub data: u32,
    /// Where the padded content ends.
    pub end: u32,
    /// The offset of the next header in the list, or 0.
    pub next: u32,
    /// The offset of the first header of the entry's own list, or 0.
    pub first: u32,
    /// The bound of the list that the entry stands in.
    pub bound: u32,
}

impl Placed {
    /// Tells whether this is a directory named "." or "..".
    pub fn is_dot(&self) -> bool {
        self.file_type == FileType::Directory && matches!(&self.name[..], b"." | b"..")
    }

    /// Tells whether this is a directory of any other name, whose list the walk visits.
    pub fn is_descended(&self) -> bool {
        self.file_type == FileType::Directory && !self.is_dot()
    }

    /// Gives the bound of the entry itself, which is also that of its list.
    pub fn own_bound(&self) -> u32 {
        if self.next == 0 {
            self.bound
        } else {
            self.next
        }
    }
}

/// A generated image and what stands in it.
#[derive(Clone, Debug)]
pub struct Rom {
    /// The bytes of the image and perhaps some behind it.
    pub image: Vec<u8>,
    /// The full size that the image gives.
    pub full_size: u32,
    /// The entries in the order of the walk.
    pub entries: Vec<Placed>,
}

/// An image to which entries are added in the order of the walk.
#[derive(Clone, Debug)]
pub struct RomBuilder {
    /// The bytes so far.
    pub image: Vec<u8>,
    /// The entries so far.
    pub entries: Vec<Placed>,
}

impl RomBuilder {
    /// Starts an image with a volume name.
    pub fn new(label: &[u8]) -> Self {
        let mut builder = Self {
            image: b"-rom1fs-".to_vec(),
            entries: Vec::new(),
        };
        builder.image.resize(16, 0);
        builder.push_name(label);
        builder
    }

    /// Adds a name with its zero and zeros up to a multiple of 16.
    fn push_name(&mut self, name: &[u8]) {
        let end = self.image.len() + (name.len() + 1).next_multiple_of(16);
        self.image.extend_from_slice(name);
        self.image.resize(end, 0);
    }

    /// Adds an entry that has no content and leads nowhere, and gives its index.
    pub fn entry(&mut self, name: &[u8], file_type: FileType, depth: usize) -> usize {
        let at = self.image.len();
        self.image.resize(at + 16, 0);
        set(&mut self.image, at, file_type as u32);
        self.push_name(name);
        let data = self.image.len() as u32;
        self.entries.push(Placed {
            at: at as u32,
            name: name.to_vec(),
            file_type,
            depth,
            data,
            end: data,
            next: 0,
            first: 0,
            bound: 0,
        });
        self.entries.len() - 1
    }

    /// Gives the last entry a content of so many bytes; they and their padding can be filled.
    pub fn content(&mut self, size: usize) -> &mut [u8] {
        let data = self.image.len();
        self.image.resize(data + size.next_multiple_of(16), 0);
        if let Some(entry) = self.entries.last_mut() {
            entry.end = self.image.len() as u32;
            set(&mut self.image, entry.at as usize + 8, size as u32);
        }
        &mut self.image[data..]
    }

    /// Makes an entry executable.
    pub fn set_executable(&mut self, index: usize) {
        self.image[self.entries[index].at as usize + 3] |= 8;
    }

    /// Sets the word spec.info of an entry.
    pub fn set_info(&mut self, index: usize, info: u32) {
        set(&mut self.image, self.entries[index].at as usize + 4, info);
    }

    /// Lets an entry follow another in a list.
    pub fn chain(&mut self, before: Option<usize>, index: usize) {
        if let Some(before) = before {
            self.entries[before].next = self.entries[index].at;
        }
    }

    /// Lets the list of a directory start with the entry that is added next.
    pub fn descend(&mut self, index: usize) {
        self.entries[index].first = self.image.len() as u32;
    }

    /// Gives the headers that "." and ".." may lead to, and those that hard links may.
    pub fn aims(&self) -> (Vec<u32>, Vec<u32>) {
        let all = self.entries.iter().map(|entry| entry.at);
        let targets = self.entries.iter();
        let targets = targets.filter(|entry| entry.file_type != FileType::HardLink);
        (all.collect(), targets.map(|entry| entry.at).collect())
    }

    /// Writes the full size, where entries lead, and the checksums.
    pub fn finish(mut self) -> Rom {
        let full_size = self.image.len() as u32;
        set(&mut self.image, 8, full_size);
        let mut bounds = vec![full_size];
        for entry in &mut self.entries {
            bounds.truncate(entry.depth);
            entry.bound = bounds[entry.depth - 1];
            bounds.push(entry.own_bound());
            let at = entry.at as usize;
            set_next(&mut self.image, at, entry.next);
            if entry.is_descended() {
                set(&mut self.image, at + 4, entry.first);
            }
            seal_header(&mut self.image, at);
        }
        seal_volume(&mut self.image);
        Rom {
            image: self.image,
            full_size,
            entries: self.entries,
        }
    }
}
