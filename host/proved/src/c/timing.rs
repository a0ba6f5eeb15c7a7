//! `include/timing.h`.

/// The number of values, `TIMING_VALUES`.
pub const VALUES: usize = 28;

/// `timing_result`.
#[repr(C)]
#[derive(Clone, Copy, Debug, PartialEq, Eq)]
pub struct Answer {
    /// The number of the refusal; 0 is granted.
    pub refusal: u32,
    /// The slot or block at fault.
    pub place: u32,
    /// The number of a block.
    pub value: u32,
}

/// `timing_booted`.
#[repr(C)]
#[derive(Clone, Copy, Debug, PartialEq, Eq)]
pub struct Booted {
    /// The number of the refusal; 0 is granted.
    pub refusal: u32,
    /// The slot or block at fault.
    pub place: u32,
    /// The values.
    pub values: [u16; VALUES],
}

layout!(Answer: 12, refusal at 0, place at 4, value at 8);
layout!(Booted: 64, refusal at 0, place at 4, values at 8);

extern "C" {
    fn timing_store(
        image: *mut u8,
        image_length: usize,
        board: u32,
        maker: u32,
        values: *const u16,
    ) -> Answer;
    fn timing_open_lid(image: *mut u8, image_length: usize) -> Answer;
    fn timing_boot(image: *const u8, image_length: usize, board: u32, maker: u32) -> Booted;
    fn timing_store_block(
        image: *const u8,
        image_length: usize,
        board: u32,
        maker: u32,
        values: *const u16,
        k: usize,
        buffer: *mut u8,
        buffer_length: usize,
    ) -> Answer;
    fn timing_open_lid_block(
        image: *const u8,
        image_length: usize,
        k: usize,
        buffer: *mut u8,
        buffer_length: usize,
    ) -> Answer;
}

/// Stores the numbers and the values.
pub fn store(image: &mut [u8], board: u32, maker: u32, values: &[u16; VALUES]) -> Answer {
    unsafe {
        timing_store(
            image.as_mut_ptr(),
            image.len(),
            board,
            maker,
            values.as_ptr(),
        )
    }
}

/// Notes that the lid was opened.
pub fn open_lid(image: &mut [u8]) -> Answer {
    unsafe { timing_open_lid(image.as_mut_ptr(), image.len()) }
}

/// The values that are stored under both numbers.
pub fn boot(image: &[u8], board: u32, maker: u32) -> Booted {
    unsafe { timing_boot(image.as_ptr(), image.len(), board, maker) }
}

/// The k-th store of a store of values; the number of its block.
pub fn store_block(
    image: &[u8],
    board: u32,
    maker: u32,
    values: &[u16; VALUES],
    k: usize,
    buffer: &mut [u8],
) -> Answer {
    unsafe {
        timing_store_block(
            image.as_ptr(),
            image.len(),
            board,
            maker,
            values.as_ptr(),
            k,
            buffer.as_mut_ptr(),
            buffer.len(),
        )
    }
}

/// The k-th store of an opening; the number of its block.
pub fn open_lid_block(image: &[u8], k: usize, buffer: &mut [u8]) -> Answer {
    unsafe {
        timing_open_lid_block(
            image.as_ptr(),
            image.len(),
            k,
            buffer.as_mut_ptr(),
            buffer.len(),
        )
    }
}
