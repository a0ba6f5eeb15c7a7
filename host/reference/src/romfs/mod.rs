//! Requests on a romfs image in a borrowed slice.
//!
//! Every request checks the whole image first.

mod header;
mod volume;
mod walk;

pub use header::FileType;

use crate::Refusal;
use volume::Rom;

/// What the header of an entry says.
#[derive(Clone, Copy, Debug, PartialEq, Eq)]
pub struct Entry {
    /// The type of the entry.
    pub file_type: FileType,
    /// Whether the executable bit is set.
    pub executable: bool,
    /// The word whose meaning depends on the type.
    pub info: u32,
    /// The size of the content in bytes.
    pub size: u32,
    /// The offset of the next header in the list, without the low four bits, or 0.
    pub next: u32,
    /// The length of the name without the zeros behind it.
    pub name_length: u32,
}

/// Tells whether an image is allowed, or gives its first fault.
pub fn check(image: &[u8]) -> Result<(), Refusal> {
    Rom::checked(image).map(drop)
}

/// Gives the offset of the first header of a name in the list of a directory, 0 being the root.
pub fn find(image: &[u8], dir: u32, name: &[u8]) -> Result<u32, Refusal> {
    let rom = Rom::checked(image)?;
    let first = match dir {
        0 => rom.root(),
        _ => match rom.reached(dir) {
            Some(header) if header.file_type() == FileType::Directory => header.info,
            _ => return Err(Refusal::plain(31)),
        },
    };
    rom.list(first)
        .find(|header| header.name == name)
        .map(|header| header.at)
        .ok_or(Refusal::plain(30))
}

/// Tells what the header at an offset says.
pub fn entry(image: &[u8], at: u32) -> Result<Entry, Refusal> {
    let header = Rom::checked(image)?.reached(at).ok_or(Refusal::plain(31))?;
    Ok(Entry {
        file_type: header.file_type(),
        executable: header.executable(),
        info: header.info,
        size: header.size,
        next: header.next(),
        name_length: header.name.len() as u32,
    })
}

/// Gives the length of the content of a regular file or symbolic link.
pub fn content_length(image: &[u8], at: u32) -> Result<u32, Refusal> {
    content_part(image, at).map(|part| part.len() as u32)
}

/// Gives the content of a regular file or symbolic link as a part of the image, empty if refused.
pub fn content(image: &[u8], at: u32) -> &[u8] {
    content_part(image, at).unwrap_or_default()
}

fn content_part(image: &[u8], at: u32) -> Result<&[u8], Refusal> {
    let rom = Rom::checked(image)?;
    match rom.reached(at) {
        Some(header) if header.file_type().has_content() => Ok(rom.content(&header)),
        _ => Err(Refusal::plain(31)),
    }
}
