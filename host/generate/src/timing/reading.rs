//! What the timing file of an image holds, by the image's bytes alone.

use reference::timing::{Timing, VALUES};

use super::NAME;
use crate::cuts::contents;

/// What the timing file holds, if it stands with its size, in an image that breaks none of the
/// first six rules.
pub fn held(image: &[u8]) -> Option<Timing> {
    let content = contents(image).remove(NAME)?;
    (content.len() == 64).then(|| decoded(&content))
}

/// What the timing file would hold by its first bytes, whatever its size, and so would each other
/// file of its size: numbers that a wrong program might boot with.
pub fn said(image: &[u8]) -> Vec<Timing> {
    let files = contents(image).into_iter();
    let near = files.filter(|(name, content)| name == NAME || content.len() == 64);
    let decoded = |(_, mut content): (Vec<u8>, Vec<u8>)| {
        content.resize(64, 0);
        decoded(&content)
    };
    near.map(decoded).collect()
}

/// The numbers and the values of 64 bytes.
fn decoded(content: &[u8]) -> Timing {
    let number = |bytes: &[u8]| {
        let digit = |number: u32, byte: &u8| 256 * number + u32::from(*byte);
        bytes.iter().fold(0, digit)
    };
    Timing {
        board: number(&content[..4]),
        maker: number(&content[4..8]),
        values: std::array::from_fn(|index| number(&content[8 + 2 * index..][..2]) as u16),
    }
}

/// The values that a boot with both numbers is owed, if any.
pub fn values_for(image: &[u8], board: u32, maker: u32) -> Option<[u16; VALUES]> {
    let timing = held(image)?;
    let theirs = timing.board != 0 && timing.board == board && timing.maker == maker;
    theirs.then_some(timing.values)
}
