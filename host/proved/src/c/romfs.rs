//! `include/romfs.h`.

/// `romfs_result`.
#[repr(C)]
#[derive(Clone, Copy, Debug, PartialEq, Eq)]
pub struct Answer {
    /// The number of the refusal; 0 is granted.
    pub refusal: u32,
    /// The header at fault.
    pub place: u32,
    /// The offset of a found header.
    pub value: u32,
}

/// `romfs_header`.
#[repr(C)]
#[derive(Clone, Copy, Debug, PartialEq, Eq)]
pub struct Header {
    /// The number of the refusal; 0 is granted.
    pub refusal: u32,
    /// The header at fault.
    pub place: u32,
    /// The type, 0 to 7.
    pub file_type: u32,
    /// 1 if it is executable.
    pub executable: u32,
    /// The word spec.info.
    pub info: u32,
    /// The size of the content.
    pub size: u32,
    /// The offset of the next header, or 0.
    pub next: u32,
    /// The length of the name.
    pub name_length: u32,
}

/// `romfs_part`.
#[repr(C)]
#[derive(Clone, Copy, Debug, PartialEq, Eq)]
pub struct Part {
    /// The number of the refusal; 0 is granted.
    pub refusal: u32,
    /// The header at fault.
    pub place: u32,
    /// Where the content begins in the image.
    pub offset: u32,
    /// The length of the content.
    pub length: u32,
}

layout!(Answer: 12, refusal at 0, place at 4, value at 8);
layout!(Header: 32, refusal at 0, place at 4, file_type at 8, executable at 12, info at 16,
    size at 20, next at 24, name_length at 28);
layout!(Part: 16, refusal at 0, place at 4, offset at 8, length at 12);

extern "C" {
    fn romfs_check(image: *const u8, image_length: usize) -> Answer;
    fn romfs_find(
        image: *const u8,
        image_length: usize,
        directory: u32,
        name: *const u8,
        name_length: usize,
    ) -> Answer;
    fn romfs_entry(image: *const u8, image_length: usize, at: u32) -> Header;
    fn romfs_content(image: *const u8, image_length: usize, at: u32) -> Part;
}

/// Checks the image.
pub fn check(image: &[u8]) -> Answer {
    unsafe { romfs_check(image.as_ptr(), image.len()) }
}

/// The header of a name in a directory's list; 0 is the root.
pub fn find(image: &[u8], directory: u32, name: &[u8]) -> Answer {
    unsafe {
        romfs_find(
            image.as_ptr(),
            image.len(),
            directory,
            name.as_ptr(),
            name.len(),
        )
    }
}

/// The entry at a header.
pub fn entry(image: &[u8], at: u32) -> Header {
    unsafe { romfs_entry(image.as_ptr(), image.len(), at) }
}

/// Where the content of a header lies.
pub fn content(image: &[u8], at: u32) -> Part {
    unsafe { romfs_content(image.as_ptr(), image.len(), at) }
}
