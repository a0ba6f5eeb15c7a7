//! The TFS requests of `include/tfs.h`.

use crate::c::tfs as c;
use crate::{told, Refusal};

/// A file, as list gives it.
#[derive(Clone, Debug, PartialEq, Eq)]
pub struct File {
    /// The name, without its padding.
    pub name: Vec<u8>,
    /// The inode number.
    pub inode: u32,
    /// The size in bytes.
    pub size: u32,
}

/// What a granted read or write has moved.
#[derive(Clone, Copy, Debug, PartialEq, Eq)]
pub struct Transferred {
    /// The count of bytes.
    pub count: u32,
    /// How many content blocks they lie in.
    pub blocks: u32,
}

impl c::Answer {
    /// The value, or the refusal.
    fn told(self) -> Result<u32, Refusal> {
        told(self.refusal, self.place, self.value)
    }

    /// What was moved, or the refusal.
    fn transferred(self) -> Result<Transferred, Refusal> {
        let transferred = Transferred {
            count: self.value,
            blocks: self.blocks,
        };
        told(self.refusal, self.place, transferred)
    }
}

/// Makes an empty volume.
pub fn format(image: &mut [u8], label: &[u8]) -> Result<(), Refusal> {
    c::format(image, label).told().map(drop)
}

/// Checks the volume.
pub fn check(image: &[u8]) -> Result<(), Refusal> {
    c::check(image).told().map(drop)
}

/// Creates a file of zeros; its inode number.
pub fn create(image: &mut [u8], name: &[u8], size: u32) -> Result<u32, Refusal> {
    c::create(image, name, size).told()
}

/// Removes a file.
pub fn remove(image: &mut [u8], name: &[u8]) -> Result<(), Refusal> {
    c::remove(image, name).told().map(drop)
}

/// Reads the file of a name into the buffer; the count, and the blocks met.
pub fn read(
    image: &[u8],
    name: &[u8],
    offset: u32,
    buffer: &mut [u8],
) -> Result<Transferred, Refusal> {
    c::read(image, name, offset, buffer).transferred()
}

/// Writes the buffer into the file of a name; the count, and the blocks met.
pub fn write(
    image: &mut [u8],
    name: &[u8],
    offset: u32,
    buffer: &[u8],
) -> Result<Transferred, Refusal> {
    c::write(image, name, offset, buffer).transferred()
}

/// What stands in a slot: nothing, or a file.
pub fn list(image: &[u8], slot: u32) -> Result<Option<File>, Refusal> {
    let listed = c::list(image, slot);
    told(listed.refusal, listed.place, ())?;
    if listed.used == 0 {
        return Ok(None);
    }
    let name = listed.name[..listed.name_length as usize].to_vec();
    Ok(Some(File {
        name,
        inode: listed.inode,
        size: listed.size,
    }))
}

/// The free bytes.
pub fn free_bytes(image: &[u8]) -> Result<u32, Refusal> {
    c::free_bytes(image).told()
}

/// Gives the k-th store of a create, from 1: the number of its block, whose bytes come to the start
/// of the buffer.
pub fn create_store(
    image: &[u8],
    name: &[u8],
    size: u32,
    k: usize,
    buffer: &mut [u8],
) -> Result<u32, Refusal> {
    c::create_store(image, name, size, k, buffer).told()
}

/// Gives the k-th store of a remove.
pub fn remove_store(
    image: &[u8],
    name: &[u8],
    k: usize,
    buffer: &mut [u8],
) -> Result<u32, Refusal> {
    c::remove_store(image, name, k, buffer).told()
}

/// Gives the k-th store of a write of these bytes.
pub fn write_store(
    image: &[u8],
    name: &[u8],
    offset: u32,
    bytes: &[u8],
    k: usize,
    buffer: &mut [u8],
) -> Result<u32, Refusal> {
    c::write_store(image, name, offset, bytes, k, buffer).told()
}

/// Clears the map bits that nobody claims.
pub fn mend(image: &mut [u8]) -> Result<(), Refusal> {
    c::mend(image).told().map(drop)
}
