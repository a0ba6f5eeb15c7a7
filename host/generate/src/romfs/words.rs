//! Words and checksums of romfs images.

/// Sets the word at an offset.
pub(super) fn set(image: &mut [u8], at: usize, value: u32) {
    image[at..at + 4].copy_from_slice(&value.to_be_bytes());
}

/// Sets the offset of the next header, and leaves the four bits below it.
pub(super) fn set_next(image: &mut [u8], at: usize, next: u32) {
    let low = u32::from(image[at + 3] & 15);
    set(image, at, next | low);
}

/// Sets the checksum of the header at an offset right, if its name has an end.
pub(super) fn seal_header(image: &mut [u8], at: usize) {
    let Some(length) = image[at + 16..].iter().position(|&byte| byte == 0) else {
        return;
    };
    let end = at + 16 + (length + 1).next_multiple_of(16);
    if end <= image.len() {
        seal(&mut image[at..end]);
    }
}

/// Sets the checksum of the volume right, if the full size that the image gives has room for one.
pub fn seal_volume(image: &mut [u8]) {
    let full_size = u32::from_be_bytes([image[8], image[9], image[10], image[11]]) as usize;
    let covered = full_size.min(512).min(image.len());
    if covered >= 16 {
        seal(&mut image[..covered]);
    }
}

/// Sets the checksum of a part, its fourth word, right.
fn seal(part: &mut [u8]) {
    set(part, 12, 0);
    let sum = part.chunks_exact(4).fold(0u32, |sum, word| {
        sum.wrapping_add(u32::from_be_bytes([word[0], word[1], word[2], word[3]]))
    });
    set(part, 12, sum.wrapping_neg());
}
