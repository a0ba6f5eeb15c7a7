//! What is timed beside the proved library and is not written in Rust.

#![allow(unsafe_code)]

use reference::tfs::{BLOCK_SIZE, MOST_BLOCKS};

extern "C" {
    fn map_ones(map: *const u8, blocks: usize) -> u32;
}

/// The number of set bits of a map below a number of blocks, counted in C.
pub fn ones(map: &[u8; BLOCK_SIZE], blocks: usize) -> u32 {
    assert!(blocks <= MOST_BLOCKS);
    unsafe { map_ones(map.as_ptr(), blocks) }
}

/// `tfs_result` as an older build has it. One with a fourth field comes back in the same registers.
#[cfg(before)]
#[repr(C)]
pub struct Answer {
    /// The number of the refusal; 0 is granted.
    pub refusal: u32,
    /// The slot or block at fault.
    pub place: u32,
    /// What is granted.
    pub value: u32,
}

/// A build of the proved library whose requests have these names.
#[cfg(before)]
macro_rules! build {
    ($module:ident, $check:literal, $free_bytes:literal, $read:literal, $write:literal) => {
        pub mod $module {
            use super::Answer;

            extern "C" {
                #[link_name = $check]
                fn tfs_check(image: *const u8, image_length: usize) -> Answer;
                #[link_name = $free_bytes]
                fn tfs_free_bytes(image: *const u8, image_length: usize) -> Answer;
                #[link_name = $read]
                fn tfs_read(
                    image: *const u8,
                    image_length: usize,
                    name: *const u8,
                    name_length: usize,
                    offset: u32,
                    buffer: *mut u8,
                    buffer_length: usize,
                ) -> Answer;
                #[link_name = $write]
                fn tfs_write(
                    image: *mut u8,
                    image_length: usize,
                    name: *const u8,
                    name_length: usize,
                    offset: u32,
                    buffer: *const u8,
                    buffer_length: usize,
                ) -> Answer;
            }

            /// Checks the volume.
            pub fn check(image: &[u8]) -> Option<()> {
                let answer = unsafe { tfs_check(image.as_ptr(), image.len()) };
                (answer.refusal == 0).then_some(())
            }

            /// The free bytes.
            pub fn free_bytes(image: &[u8]) -> Option<u32> {
                let answer = unsafe { tfs_free_bytes(image.as_ptr(), image.len()) };
                (answer.refusal == 0).then_some(answer.value)
            }

            /// Reads the file of a name into the buffer; the count.
            pub fn read(image: &[u8], name: &[u8], offset: u32, buffer: &mut [u8]) -> Option<u32> {
                let (at, length) = (name.as_ptr(), name.len());
                let (into, room) = (buffer.as_mut_ptr(), buffer.len());
                let answer = unsafe {
                    tfs_read(image.as_ptr(), image.len(), at, length, offset, into, room)
                };
                (answer.refusal == 0).then_some(answer.value)
            }

            /// Writes the buffer into the file of a name; the count.
            pub fn write(image: &mut [u8], name: &[u8], offset: u32, buffer: &[u8]) -> Option<u32> {
                let (at, length) = (name.as_ptr(), name.len());
                let (from, count) = (buffer.as_ptr(), buffer.len());
                let (volume, size) = (image.as_mut_ptr(), image.len());
                let answer = unsafe { tfs_write(volume, size, at, length, offset, from, count) };
                (answer.refusal == 0).then_some(answer.value)
            }
        }
    };
}

#[cfg(before)]
build!(
    before,
    "before_tfs_check",
    "before_tfs_free_bytes",
    "before_tfs_read",
    "before_tfs_write"
);

#[cfg(before)]
build!(
    now,
    "now_tfs_check",
    "now_tfs_free_bytes",
    "now_tfs_read",
    "now_tfs_write"
);

#[cfg(test)]
mod tests {
    use super::*;
    use generate::Random;

    #[test]
    fn the_count_in_c_is_that_of_the_bits() {
        let mut random = Random::new(1);
        for _ in 0..20 {
            let mut map = [0; BLOCK_SIZE];
            random.fill(&mut map);
            let bit = |block: usize| map[block / 32 * 4 + 3 - block % 32 / 8] >> (block % 8) & 1;
            let mut expected = 0;
            for blocks in 0..MOST_BLOCKS {
                assert_eq!(ones(&map, blocks), expected, "{blocks}");
                expected += u32::from(bit(blocks));
            }
            assert_eq!(ones(&map, MOST_BLOCKS), expected);
        }
    }
}
