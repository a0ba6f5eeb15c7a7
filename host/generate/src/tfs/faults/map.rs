//! Maps with bits that nobody claims, and without bits that should be set.

use reference::tfs::BLOCK_SIZE;
use reference::Refusal;

use super::Damage;
use crate::tfs::made::Volume;
use crate::tfs::volume::map_byte;
use crate::Random;

/// A way to break rule 7.
#[derive(Clone, Copy, Debug, PartialEq, Eq, Hash)]
pub enum MapFault {
    /// A set bit that nobody claims.
    OneStray,
    /// Some such bits.
    SomeStray,
    /// All of them.
    AllStray,
    /// The bit of a claimed block is not set.
    Missing,
    /// One of the first three bits is not set.
    MissingFixed,
    /// Some stray bits, and the bit of a claimed block is not set.
    StrayAndMissing,
    /// Some stray bits, and one of the first three is not set.
    StrayAndMissingFixed,
}

impl MapFault {
    /// All ways.
    pub const ALL: [Self; 7] = [
        Self::OneStray,
        Self::SomeStray,
        Self::AllStray,
        Self::Missing,
        Self::MissingFixed,
        Self::StrayAndMissing,
        Self::StrayAndMissingFixed,
    ];

    /// How many of so many free blocks become stray.
    fn strays(self, random: &mut Random, free: usize) -> usize {
        match self {
            Self::Missing | Self::MissingFixed => 0,
            Self::OneStray => 1,
            Self::AllStray => free,
            _ => random.between(1, free.max(1)),
        }
    }
}

/// An image whose map is wrong.
#[derive(Clone, Debug)]
pub struct DamagedMap {
    /// The image.
    pub image: Vec<u8>,
    /// What a check owes it.
    pub checked: Refusal,
    /// What a mend owes it; where it grants, it gives the volume back as it was.
    pub mended: Option<Refusal>,
}

/// Breaks rule 7 in a given way, as far as the volume has the blocks for it.
pub fn damage_map(random: &mut Random, volume: &Volume, way: MapFault) -> Option<DamagedMap> {
    let mut damage = Damage::new(volume);
    let free = damage.free_blocks();
    let strays = way.strays(random, free.len());
    let stray = damage.stray(random, strays)?;
    let claimed: Vec<u32> = damage.claimed();
    let missing = match way {
        MapFault::Missing | MapFault::StrayAndMissing => Some(random.choose(&claimed)?),
        MapFault::MissingFixed | MapFault::StrayAndMissingFixed => Some(random.pick(&[0, 1, 2])),
        _ => None,
    };
    missing
        .into_iter()
        .for_each(|block| damage.flip(block as usize));
    let lowest = stray.into_iter().chain(missing).min()?;
    Some(DamagedMap {
        image: damage.image,
        checked: Refusal::at(7, lowest),
        mended: missing.map(|block| Refusal::at(7, block)),
    })
}

/// Breaks one of the rules 1 to 6 and sets bits that nobody claims; gives the image with the answer
/// that check and mend owe it.
pub fn stray_beside(random: &mut Random, volume: &Volume, rule: u32) -> Option<(Vec<u8>, Refusal)> {
    let mut damage = Damage::new(volume);
    let most = damage.free_blocks().len();
    let count = random.between(1, most.max(1));
    damage.stray(random, count)?;
    let fault = damage.strike(random, rule)?;
    Some((damage.image, fault))
}

impl Damage<'_> {
    /// The blocks that files claim.
    fn claimed(&self) -> Vec<u32> {
        let files = self.volume.files.iter();
        let claims = files.flat_map(|file| file.blocks.iter().chain([&file.inode]));
        claims.copied().collect()
    }

    /// The blocks from 3 on that nobody claims.
    fn free_blocks(&self) -> Vec<u32> {
        let claimed = self.claimed();
        let blocks = 3..self.volume.blocks as u32;
        blocks.filter(|block| !claimed.contains(block)).collect()
    }

    /// Sets the bits of so many free blocks, and gives the lowest; nothing where there are fewer.
    fn stray(&mut self, random: &mut Random, count: usize) -> Option<Option<u32>> {
        let mut free = self.free_blocks();
        if free.len() < count {
            return None;
        }
        random.shuffle(&mut free);
        let stray = &free[..count];
        stray.iter().for_each(|block| self.flip(*block as usize));
        Some(stray.iter().copied().min())
    }

    /// Turns the bit of a block.
    pub(super) fn flip(&mut self, block: usize) {
        self.image[BLOCK_SIZE + map_byte(block)] ^= 1 << (block % 8);
        self.flipped.push(block);
    }
}
