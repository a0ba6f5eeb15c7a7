//! Slots that are neither free nor used, or repeat a name.

use super::Damage;
use crate::tfs::made::File;
use crate::Random;

/// A way to break rule 4.
#[derive(Clone, Copy, Debug, PartialEq, Eq, Hash)]
pub enum SlotFault {
    /// A name beside inode number 0.
    NoInode,
    /// A name beside an inode number that is not 0 and of no block that a file may own.
    InodeOutside,
    /// An inode number beside an empty name.
    NoName,
    /// No zero among the 16 bytes of the name.
    NoEnd,
    /// The name of a lower slot.
    Repeated,
}

impl SlotFault {
    /// All ways; the last one takes two files.
    pub const ALL: [Self; 5] = [
        Self::NoInode,
        Self::InodeOutside,
        Self::NoName,
        Self::NoEnd,
        Self::Repeated,
    ];
}

impl Damage<'_> {
    /// Breaks a slot in a way that there are files for.
    pub(super) fn break_slot(&mut self, random: &mut Random) -> Option<u32> {
        let ways = match self.files().len() {
            0 | 1 => &SlotFault::ALL[..4],
            _ => &SlotFault::ALL[..],
        };
        let way = random.pick(ways);
        self.break_slot_by(random, way)
    }

    /// Breaks a slot in a given way and gives its number.
    pub(super) fn break_slot_by(&mut self, random: &mut Random, way: SlotFault) -> Option<u32> {
        let files = self.files();
        if way == SlotFault::Repeated {
            return (files.len() > 1).then(|| self.repeat_name(random, &files));
        }
        let free = self.free_slots();
        let file = random.choose(&files);
        let file = file.filter(|_| free.is_empty() || random.below(3) > 0);
        let slot = match file {
            Some(file) => file.slot,
            None => self.use_slot(random, &free)?,
        };
        let at = Self::slot_at(slot);
        match way {
            SlotFault::NoInode => self.set(at, 0),
            SlotFault::InodeOutside => {
                let wrong = self.outside(random).max(1);
                self.set(at, wrong);
            }
            SlotFault::NoName => self.empty_name(random, at + 4),
            _ => self.unend_name(random, at + 4),
        }
        self.taken.push(slot);
        Some(slot as u32)
    }

    /// Gives a free slot an inode number and a name; its leftovers stay behind the name.
    fn use_slot(&mut self, random: &mut Random, free: &[usize]) -> Option<usize> {
        let slot = random.choose(free)?;
        let at = Self::slot_at(slot);
        let length = random.between(1, 15);
        let name = random.name(length);
        let last = self.volume.blocks as u32 - 1;
        self.set(at, random.pick(&[3, last]).max(3));
        self.image[at + 4..at + 4 + length].copy_from_slice(&name);
        self.image[at + 4 + length] = 0;
        Some(slot)
    }

    /// Zeros the first byte of a name, at times all of them, so that no leftovers stand behind.
    fn empty_name(&mut self, random: &mut Random, name: usize) {
        let count = random.pick(&[1, 1, 16]);
        self.image[name..name + count].fill(0);
    }

    /// Takes every zero out of the 16 bytes of a name.
    fn unend_name(&mut self, random: &mut Random, name: usize) {
        let zeros = self.image[name..name + 16].iter_mut();
        zeros
            .filter(|byte| **byte == 0)
            .for_each(|byte| *byte = random.nonzero());
    }

    /// Gives a slot the name of a lower one; behind its zero stand the same leftovers or others.
    fn repeat_name(&mut self, random: &mut Random, files: &[&File]) -> u32 {
        let lower = random.below(files.len() - 1);
        let higher = random.between(lower + 1, files.len() - 1);
        let (lower, higher) = (files[lower], files[higher]);
        let [from, to] = [lower, higher].map(|file| Self::slot_at(file.slot) + 4);
        let end = lower.name.len() + 1;
        let count = random.pick(&[end, end, end, 16]);
        self.image.copy_within(from..from + count, to);
        if random.one_in(2) {
            random.fill(&mut self.image[to + count..to + 16]);
        }
        self.taken.extend([lower.slot, higher.slot]);
        higher.slot as u32
    }
}
