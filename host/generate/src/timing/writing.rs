//! The bytes of a timing file, by its layout alone.

use reference::timing::Timing;

/// The file's bytes: both numbers, then the values, all big-endian.
pub fn encoded(timing: &Timing) -> [u8; 64] {
    let values = timing.values.iter().map(|value| u32::from(*value));
    let numbers = [timing.board, timing.maker].map(|number| [number >> 16, number & 0xFFFF]);
    let words = numbers.into_iter().flatten().chain(values);
    let mut bytes = words.flat_map(|word| [(word >> 8) as u8, word as u8]);
    std::array::from_fn(|_| bytes.next().expect("32 words"))
}
