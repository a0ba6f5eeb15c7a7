//! Volumes with faults of a known number and place.

mod map;
mod slots;

use reference::tfs::{BLOCK_SIZE, LARGEST_FILE, SLOTS};
use reference::Refusal;

use super::made::{File, Volume};
use crate::Random;
pub use map::{damage_map, stray_beside, DamagedMap, MapFault};
pub use slots::SlotFault;

/// Breaks one of the rules 1 to 7 and gives the image with the answer that a check owes it.
///
/// Gives nothing if the volume has no part that the rule could be broken at.
pub fn damage_volume(
    random: &mut Random,
    volume: &Volume,
    rule: u32,
) -> Option<(Vec<u8>, Refusal)> {
    let mut damage = Damage::new(volume);
    let fault = damage.strike(random, rule)?;
    Some((damage.image, fault))
}

/// Breaks rule 4 in a given way, as far as the volume has the files or the free slot for it.
pub fn damage_slot(
    random: &mut Random,
    volume: &Volume,
    way: SlotFault,
) -> Option<(Vec<u8>, Refusal)> {
    let mut damage = Damage::new(volume);
    let slot = damage.break_slot_by(random, way)?;
    Some((damage.image, Refusal::at(4, slot)))
}

/// Breaks two rules, or one at two places, and gives the image with the answer owed to it.
pub fn damage_volume_twice(
    random: &mut Random,
    volume: &Volume,
    rules: (u32, u32),
) -> Option<(Vec<u8>, Refusal)> {
    let mut damage = Damage::new(volume);
    let later = damage.strike(random, rules.0.max(rules.1))?;
    let sooner = damage.strike(random, rules.0.min(rules.1))?;
    let first = [sooner, later]
        .into_iter()
        .min_by_key(|fault| (fault.number, fault.place))?;
    Some((damage.image, first))
}

/// Changes some bytes, mostly where they matter, or the length, with an open outcome.
pub fn scramble_volume(random: &mut Random, volume: &Volume) -> Vec<u8> {
    let mut image = volume.image.clone();
    for _ in 0..random.between(1, 3) {
        let inode = random.below(volume.files.len() + 1);
        let inode = volume
            .files
            .get(inode)
            .map_or(0, |file| file.inode as usize);
        let at = match random.below(8) {
            0 => random.below(24),
            1 => BLOCK_SIZE + random.below(volume.blocks.div_ceil(8)),
            2 => BLOCK_SIZE + random.below(BLOCK_SIZE),
            3 | 4 => 2 * BLOCK_SIZE + random.below(20 * SLOTS),
            5 | 6 => inode * BLOCK_SIZE + random.below(32),
            _ => random.below(image.len()),
        };
        image[at] = match random.below(4) {
            0 => 0,
            1 => image[at] ^ (1 << random.below(8)),
            2 => image[at].wrapping_add(1),
            _ => random.bits() as u8,
        };
    }
    if random.one_in(6) {
        let length = random.between(1500, image.len());
        image.truncate(length);
    }
    image
}

struct Damage<'a> {
    volume: &'a Volume,
    image: Vec<u8>,
    /// Slots that an earlier fault is about.
    taken: Vec<usize>,
    /// Map bits that an earlier fault is about.
    flipped: Vec<usize>,
}

impl<'a> Damage<'a> {
    fn new(volume: &'a Volume) -> Self {
        Self {
            volume,
            image: volume.image.clone(),
            taken: Vec::new(),
            flipped: Vec::new(),
        }
    }

    fn strike(&mut self, random: &mut Random, rule: u32) -> Option<Refusal> {
        let place = match rule {
            1 => {
                let length = random.pick(&[0, 1, 3, 511, 512, 1024, 1535, 1535]);
                self.image.truncate(length);
                0
            }
            2 => {
                let wrong = random.pick(&[0, 3744, 3746, 0xA10E_0000, 3745 << 8, 0x8000_0EA1]);
                self.set(0, wrong);
                0
            }
            3 => {
                (4..20).for_each(|at| self.image[at] = random.nonzero());
                0
            }
            4 => self.break_slot(random)?,
            5 => self.break_inode(random)?,
            6 => self.claim_twice(random)?,
            7 => self.flip_bit(random),
            _ => return None,
        };
        Some(Refusal::at(rule, place))
    }

    fn set(&mut self, at: usize, value: u32) {
        self.image[at..at + 4].copy_from_slice(&value.to_be_bytes());
    }

    fn slot_at(slot: usize) -> usize {
        2 * BLOCK_SIZE + 20 * slot
    }

    fn files(&self) -> Vec<&'a File> {
        let untaken = |file: &&File| !self.taken.contains(&file.slot);
        self.volume.files.iter().filter(untaken).collect()
    }

    fn free_slots(&self) -> Vec<usize> {
        let used = |slot: &usize| self.volume.files.iter().any(|file| file.slot == *slot);
        (0..SLOTS)
            .filter(|slot| !used(slot) && !self.taken.contains(slot))
            .collect()
    }

    /// A number that is no block which a file may own.
    fn outside(&self, random: &mut Random) -> u32 {
        let count = self.volume.blocks as u32;
        random.pick(&[
            0,
            1,
            2,
            count,
            count + 1,
            0x0100_0003,
            0x8000_0000,
            u32::MAX,
        ])
    }

    fn break_inode(&mut self, random: &mut Random) -> Option<u32> {
        let file = random.choose(&self.files())?;
        let inode = file.inode as usize * BLOCK_SIZE;
        let listed = file.blocks.len();
        match random.below(5) {
            0 => {
                let size = random.pick(&[LARGEST_FILE + 1, LARGEST_FILE + 512, u32::MAX, 1 << 24]);
                self.set(inode, size);
            }
            1 if listed > 0 => {
                let index = random.below(listed);
                let wrong = self.outside(random);
                self.set(inode + 4 + 4 * index, wrong);
            }
            2 if listed > 0 => self.set(inode, 512 * (listed as u32 - 1)),
            3 if listed < 127 => self.set(inode, 512 * listed as u32 + 1),
            _ if listed < 127 => {
                let any = random.between(listed, 126);
                let index = random.pick(&[listed, 126, any]);
                let wrong = random.pick(&[1, file.inode, 0x0100_0000, u32::MAX]);
                self.set(inode + 4 + 4 * index, wrong);
            }
            _ => self.set(inode, u32::MAX),
        }
        self.taken.push(file.slot);
        Some(file.slot as u32)
    }

    fn claim_twice(&mut self, random: &mut Random) -> Option<u32> {
        let files = self.files();
        let other = random.choose(&files)?;
        let lowest = other.blocks.iter().copied().fold(other.inode, u32::min);
        let free = self.free_slots();
        if !free.is_empty() && random.one_in(4) {
            return Some(self.share_inode_with_new_name(random, other, &free, lowest));
        }
        let file = random.pick(&files);
        self.taken.extend([file.slot, other.slot]);
        if file.slot != other.slot && random.one_in(3) {
            self.set(Self::slot_at(file.slot), other.inode);
            return Some(lowest);
        }
        if file.blocks.is_empty() {
            self.taken.truncate(self.taken.len() - 2);
            return None;
        }
        let index = random.below(file.blocks.len());
        let mut targets = other.blocks.clone();
        targets.push(other.inode);
        targets.retain(|target| *target != file.blocks[index]);
        let target = random.pick(&targets);
        self.set(file.inode as usize * BLOCK_SIZE + 4 + 4 * index, target);
        Some(target)
    }

    fn share_inode_with_new_name(
        &mut self,
        random: &mut Random,
        other: &File,
        free: &[usize],
        lowest: u32,
    ) -> u32 {
        let slot = random.pick(free);
        let at = Self::slot_at(slot);
        self.set(at, other.inode);
        // Fifteen bytes above 7F hex, as no generated file has for a name.
        self.image[at + 4..at + 19].fill_with(|| random.nonzero() | 0x80);
        self.image[at + 19] = 0;
        self.taken.extend([slot, other.slot]);
        lowest
    }

    fn flip_bit(&mut self, random: &mut Random) -> u32 {
        let count = self.volume.blocks;
        let block = loop {
            let any = random.below(count);
            let block = random.pick(&[any, count - 1, 0, 2]);
            if !self.flipped.contains(&block) {
                break block;
            }
        };
        self.flip(block);
        block as u32
    }
}
