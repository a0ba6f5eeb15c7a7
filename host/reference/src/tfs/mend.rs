//! The mend of a map with bits that nobody claims.

use super::layout::{blocks_mut, map_words, set_word, MAP};
use super::volume::claims;
use crate::Refusal;

/// Clears the set bits below N of blocks that nobody claims, where nothing else is wrong.
pub fn mend(image: &mut [u8]) -> Result<(), Refusal> {
    let claimed = claims(image)?.claimed;
    let blocks = blocks_mut(image);
    let mut mended = blocks[MAP];
    for (index, ((word, mask), owned)) in map_words(blocks).zip(claimed.words()).enumerate() {
        let missing = owned & !word & mask;
        if missing != 0 {
            let block = 32 * index as u32 + missing.trailing_zeros();
            return Err(Refusal::at(7, block));
        }
        set_word(&mut mended, index, word & (owned | !mask));
    }
    blocks[MAP] = mended;
    Ok(())
}
