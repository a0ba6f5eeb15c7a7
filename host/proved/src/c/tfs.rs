//! `include/tfs.h`.

/// `tfs_result`.
#[repr(C)]
#[derive(Clone, Copy, Debug, PartialEq, Eq)]
pub struct Answer {
    /// The number of the refusal; 0 is granted.
    pub refusal: u32,
    /// The slot or block at fault.
    pub place: u32,
    /// An inode number, a count, free bytes or the number of a block.
    pub value: u32,
    /// Granted reads and writes: how many content blocks the bytes lie in.
    pub blocks: u32,
}

/// `tfs_slot`.
#[repr(C)]
#[derive(Clone, Copy, Debug, PartialEq, Eq)]
pub struct Slot {
    /// The number of the refusal; 0 is granted.
    pub refusal: u32,
    /// The slot or block at fault.
    pub place: u32,
    /// 1 for a file.
    pub used: u32,
    /// The file's inode number.
    pub inode: u32,
    /// The file's size in bytes.
    pub size: u32,
    /// The length of the name.
    pub name_length: u32,
    /// The name, padded with zeros.
    pub name: [u8; 16],
}

layout!(Answer: 16, refusal at 0, place at 4, value at 8, blocks at 12);
layout!(Slot: 40, refusal at 0, place at 4, used at 8, inode at 12, size at 16,
    name_length at 20, name at 24);

extern "C" {
    fn tfs_format(
        image: *mut u8,
        image_length: usize,
        label: *const u8,
        label_length: usize,
    ) -> Answer;
    fn tfs_check(image: *const u8, image_length: usize) -> Answer;
    fn tfs_create(
        image: *mut u8,
        image_length: usize,
        name: *const u8,
        name_length: usize,
        size: u32,
    ) -> Answer;
    fn tfs_remove(
        image: *mut u8,
        image_length: usize,
        name: *const u8,
        name_length: usize,
    ) -> Answer;
    fn tfs_read(
        image: *const u8,
        image_length: usize,
        name: *const u8,
        name_length: usize,
        offset: u32,
        buffer: *mut u8,
        buffer_length: usize,
    ) -> Answer;
    fn tfs_write(
        image: *mut u8,
        image_length: usize,
        name: *const u8,
        name_length: usize,
        offset: u32,
        buffer: *const u8,
        buffer_length: usize,
    ) -> Answer;
    fn tfs_list(image: *const u8, image_length: usize, slot: u32) -> Slot;
    fn tfs_free_bytes(image: *const u8, image_length: usize) -> Answer;
    fn tfs_create_store(
        image: *const u8,
        image_length: usize,
        name: *const u8,
        name_length: usize,
        size: u32,
        k: usize,
        buffer: *mut u8,
        buffer_length: usize,
    ) -> Answer;
    fn tfs_remove_store(
        image: *const u8,
        image_length: usize,
        name: *const u8,
        name_length: usize,
        k: usize,
        buffer: *mut u8,
        buffer_length: usize,
    ) -> Answer;
    fn tfs_write_store(
        image: *const u8,
        image_length: usize,
        name: *const u8,
        name_length: usize,
        offset: u32,
        bytes: *const u8,
        bytes_length: usize,
        k: usize,
        buffer: *mut u8,
        buffer_length: usize,
    ) -> Answer;
    fn tfs_mend(image: *mut u8, image_length: usize) -> Answer;
}

/// Makes an empty volume.
pub fn format(image: &mut [u8], label: &[u8]) -> Answer {
    unsafe { tfs_format(image.as_mut_ptr(), image.len(), label.as_ptr(), label.len()) }
}

/// Checks the volume.
pub fn check(image: &[u8]) -> Answer {
    unsafe { tfs_check(image.as_ptr(), image.len()) }
}

/// Creates a file of zeros; its inode number.
pub fn create(image: &mut [u8], name: &[u8], size: u32) -> Answer {
    unsafe {
        tfs_create(
            image.as_mut_ptr(),
            image.len(),
            name.as_ptr(),
            name.len(),
            size,
        )
    }
}

/// Removes a file.
pub fn remove(image: &mut [u8], name: &[u8]) -> Answer {
    unsafe { tfs_remove(image.as_mut_ptr(), image.len(), name.as_ptr(), name.len()) }
}

/// Reads the file of a name into the buffer; the count, and the blocks met.
pub fn read(image: &[u8], name: &[u8], offset: u32, buffer: &mut [u8]) -> Answer {
    unsafe {
        tfs_read(
            image.as_ptr(),
            image.len(),
            name.as_ptr(),
            name.len(),
            offset,
            buffer.as_mut_ptr(),
            buffer.len(),
        )
    }
}

/// Writes the buffer into the file of a name; the count, and the blocks met.
pub fn write(image: &mut [u8], name: &[u8], offset: u32, buffer: &[u8]) -> Answer {
    unsafe {
        tfs_write(
            image.as_mut_ptr(),
            image.len(),
            name.as_ptr(),
            name.len(),
            offset,
            buffer.as_ptr(),
            buffer.len(),
        )
    }
}

/// What stands in a slot.
pub fn list(image: &[u8], slot: u32) -> Slot {
    unsafe { tfs_list(image.as_ptr(), image.len(), slot) }
}

/// The free bytes.
pub fn free_bytes(image: &[u8]) -> Answer {
    unsafe { tfs_free_bytes(image.as_ptr(), image.len()) }
}

/// The k-th store of a create; the number of its block.
pub fn create_store(image: &[u8], name: &[u8], size: u32, k: usize, buffer: &mut [u8]) -> Answer {
    unsafe {
        tfs_create_store(
            image.as_ptr(),
            image.len(),
            name.as_ptr(),
            name.len(),
            size,
            k,
            buffer.as_mut_ptr(),
            buffer.len(),
        )
    }
}

/// The k-th store of a remove; the number of its block.
pub fn remove_store(image: &[u8], name: &[u8], k: usize, buffer: &mut [u8]) -> Answer {
    unsafe {
        tfs_remove_store(
            image.as_ptr(),
            image.len(),
            name.as_ptr(),
            name.len(),
            k,
            buffer.as_mut_ptr(),
            buffer.len(),
        )
    }
}

/// The k-th store of a write of these bytes; the number of its block.
pub fn write_store(
    image: &[u8],
    name: &[u8],
    offset: u32,
    bytes: &[u8],
    k: usize,
    buffer: &mut [u8],
) -> Answer {
    unsafe {
        tfs_write_store(
            image.as_ptr(),
            image.len(),
            name.as_ptr(),
            name.len(),
            offset,
            bytes.as_ptr(),
            bytes.len(),
            k,
            buffer.as_mut_ptr(),
            buffer.len(),
        )
    }
}

/// Clears the map bits that nobody claims.
pub fn mend(image: &mut [u8]) -> Answer {
    unsafe { tfs_mend(image.as_mut_ptr(), image.len()) }
}
