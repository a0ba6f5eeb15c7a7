//! The romfs requests of `include/romfs.h`.

use crate::c::romfs as c;
use crate::{told, Refusal};

/// An entry, as its header gives it.
#[derive(Clone, Copy, Debug, PartialEq, Eq)]
pub struct Entry {
    /// The type, 0 to 7.
    pub file_type: u32,
    /// Whether it is executable.
    pub executable: bool,
    /// The word spec.info.
    pub info: u32,
    /// The size of its content.
    pub size: u32,
    /// The offset of the next header, or 0.
    pub next: u32,
    /// The length of its name, which begins 16 bytes after the header.
    pub name_length: u32,
}

impl c::Answer {
    /// The value, or the refusal.
    fn told(self) -> Result<u32, Refusal> {
        told(self.refusal, self.place, self.value)
    }
}

/// Checks the image.
pub fn check(image: &[u8]) -> Result<(), Refusal> {
    c::check(image).told().map(drop)
}

/// The header of a name in a directory's list; 0 is the root.
pub fn find(image: &[u8], directory: u32, name: &[u8]) -> Result<u32, Refusal> {
    c::find(image, directory, name).told()
}

/// The entry at a header.
pub fn entry(image: &[u8], at: u32) -> Result<Entry, Refusal> {
    let e = c::entry(image, at);
    let entry = Entry {
        file_type: e.file_type,
        executable: e.executable != 0,
        info: e.info,
        size: e.size,
        next: e.next,
        name_length: e.name_length,
    };
    told(e.refusal, e.place, entry)
}

/// Where the content of a header lies: offset and length.
pub fn content(image: &[u8], at: u32) -> Result<(u32, u32), Refusal> {
    let part = c::content(image, at);
    told(part.refusal, part.place, (part.offset, part.length))
}
