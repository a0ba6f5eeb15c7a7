//! romfs images with faults of a known number and place.

use std::ops::Range;

use reference::romfs::FileType;
use reference::Refusal;

use super::builder::{Placed, Rom};
use super::words::{seal_header, seal_volume, set, set_next};
use crate::Random;

/// Breaks one of the rules 21 to 27 and 29 and gives the image with the answer owed to it.
///
/// Rule 28 is broken by an image whose plan has a spine of 9; for such an image the rule
/// gives the image as it is. Gives nothing if there is no part to break the rule at.
pub fn damage_rom(random: &mut Random, rom: &Rom, rule: u32) -> Option<(Vec<u8>, Refusal)> {
    let mut damage = Damage::new(rom);
    let fault = damage.strike(random, rule)?;
    damage.finish(&[fault], too_deep(rom))
}

/// Breaks two rules, or one at two places, and gives the image with the answer owed to it.
pub fn damage_rom_twice(
    random: &mut Random,
    rom: &Rom,
    rules: (u32, u32),
) -> Option<(Vec<u8>, Refusal)> {
    let mut damage = Damage::new(rom);
    let later = damage.strike(random, rules.0.max(rules.1))?;
    let sooner = damage.strike(random, rules.0.min(rules.1))?;
    damage.finish(&[sooner, later], too_deep(rom))
}

/// Changes some bytes or words, mostly with checksums set right again, with an open outcome.
pub fn scramble_rom(random: &mut Random, rom: &Rom) -> Vec<u8> {
    let mut image = rom.image.clone();
    for _ in 0..random.between(1, 2) {
        let header = random.below(rom.entries.len() + 1);
        let header = rom.entries.get(header).map_or(0, |entry| entry.at as usize);
        let aim = random.below(rom.entries.len() + 1);
        let aim = rom.entries.get(aim).map_or(rom.full_size, |entry| entry.at);
        match random.below(6) {
            0 if header > 0 => set_next(&mut image, header, aim),
            1 if header > 0 => set(&mut image, header + 4, aim),
            2 if header > 0 => image[header + 3] ^= 1 << random.below(4),
            3 if header > 0 => image[header + 11] = random.bits() as u8,
            4 => {
                let at = header + 16 + random.below(4);
                image[at] = random.pick(&[0, b'.', b'x']);
            }
            _ => {
                let at = random.below(image.len());
                image[at] ^= 1 << random.below(8);
            }
        }
        if header > 0 && !random.one_in(8) {
            seal_header(&mut image, header);
        }
    }
    if !random.one_in(8) {
        seal_volume(&mut image);
    }
    if random.one_in(8) {
        let length = random.below(image.len() + 1);
        image.truncate(length);
    }
    image
}

/// The fault of a tree that goes down too far.
fn too_deep(rom: &Rom) -> Option<Refusal> {
    let mut eighth = rom.entries.iter().filter(|entry| entry.depth == 8);
    eighth
        .find(|entry| entry.first != 0)
        .map(|entry| Refusal::at(28, entry.at))
}

/// Brings faults into the order in which a check meets them.
fn order(fault: &Refusal) -> (u32, u32, u32) {
    match fault.number {
        26..=28 => (26, fault.place, fault.number),
        number => (number, fault.place, 0),
    }
}

struct Damage<'a> {
    rom: &'a Rom,
    image: Vec<u8>,
    /// Headers that an earlier fault is about.
    taken: Vec<u32>,
    /// Whether the checksum of the volume is to stay wrong.
    unsealed: bool,
    length: usize,
}

impl<'a> Damage<'a> {
    fn new(rom: &'a Rom) -> Self {
        let image = rom.image.clone();
        let length = image.len();
        Self {
            rom,
            image,
            taken: Vec::new(),
            unsealed: false,
            length,
        }
    }

    fn finish(mut self, faults: &[Refusal], deep: Option<Refusal>) -> Option<(Vec<u8>, Refusal)> {
        if !self.unsealed {
            seal_volume(&mut self.image);
        }
        self.image.truncate(self.length);
        let first = faults.iter().copied().chain(deep).min_by_key(order)?;
        Some((self.image, first))
    }

    /// Breaks a rule and gives the refusal owed to that fault alone.
    fn strike(&mut self, random: &mut Random, rule: u32) -> Option<Refusal> {
        let place = match rule {
            26 => self.break_header(random)?,
            27 => self.break_nesting(random)?,
            28 => too_deep(self.rom)?.place,
            29 => self.break_link(random)?,
            _ => self.break_volume(random, rule)?,
        };
        Some(Refusal::at(rule, place))
    }

    /// Breaks one of the rules 21 to 25, about the volume, and gives their place.
    fn break_volume(&mut self, random: &mut Random, rule: u32) -> Option<u32> {
        match rule {
            21 => self.length = random.pick(&[0, 1, 7, 8, 16, 31, 31]),
            22 => {
                let index = random.below(8);
                self.image[index] = self.rom.image[index] ^ (1 << random.below(8));
            }
            23 => self.break_full_size(random),
            24 => {
                seal_volume(&mut self.image);
                self.image[12 + random.below(4)] ^= 1 << random.below(8);
                self.unsealed = true;
            }
            25 => self.fill_nonzero(random, 16..self.rom.full_size as usize),
            _ => return None,
        }
        Some(0)
    }

    /// Sets a full size that is too small, too large or odd.
    fn break_full_size(&mut self, random: &mut Random) {
        let full_size = self.rom.full_size;
        let long = (self.image.len() as u32 + 1).next_multiple_of(16);
        let odd = full_size - random.between(1, 15) as u32;
        let wrong = [
            0,
            16,
            31,
            odd,
            odd,
            long,
            long,
            0x8000_0000 | full_size,
            0xFFFF_FFF0,
        ];
        set(&mut self.image, 8, random.pick(&wrong));
        self.unsealed = true;
    }

    /// Leaves no zero byte in a part of the image.
    fn fill_nonzero(&mut self, random: &mut Random, part: Range<usize>) {
        let bytes = self.image[part].iter_mut();
        bytes.for_each(|byte| *byte = random.nonzero());
    }

    fn pick_entry(
        &mut self,
        random: &mut Random,
        fits: impl Fn(&Placed) -> bool,
    ) -> Option<&'a Placed> {
        let untaken = |entry: &&Placed| !self.taken.contains(&entry.at) && fits(entry);
        let entries: Vec<&Placed> = self.rom.entries.iter().filter(untaken).collect();
        let entry = random.choose(&entries)?;
        self.taken.push(entry.at);
        Some(entry)
    }

    fn break_header(&mut self, random: &mut Random) -> Option<u32> {
        let entry = self.pick_entry(random, |_| true)?;
        let at = entry.at as usize;
        let governed = matches!(entry.file_type, FileType::Socket | FileType::Fifo)
            || entry.file_type.has_content();
        match random.below(7) {
            0 => {
                let over = entry.bound - entry.data + 1;
                let size = random.pick(&[over, over + 15, 0x7FFF_FFFF, 0xFFFF_FFF0, u32::MAX]);
                set(&mut self.image, at + 8, size);
            }
            1 => self.image[at + 16] = 0,
            2 => self.fill_nonzero(random, at + 16..entry.bound as usize),
            3 if governed => {
                let info = random.pick(&[1, 16, entry.at, u32::MAX]);
                set(&mut self.image, at + 4, info);
            }
            4 if !entry.file_type.has_content() => {
                set(&mut self.image, at + 8, random.pick(&[1, 16, u32::MAX]));
            }
            5 if entry.next == 0 && entry.end < entry.bound && entry.first == 0 => {
                let stub = entry.bound - 16;
                self.set_next(entry, stub);
                return Some(stub);
            }
            _ => {
                let wrong = at + random.pick(&[12, 13, 14, 15]);
                self.image[wrong] ^= 1 << random.below(8);
                return Some(entry.at);
            }
        }
        seal_header(&mut self.image, at);
        Some(entry.at)
    }

    fn set_next(&mut self, entry: &Placed, next: u32) {
        let at = entry.at as usize;
        set_next(&mut self.image, at, next);
        seal_header(&mut self.image, at);
    }

    fn break_nesting(&mut self, random: &mut Random) -> Option<u32> {
        if random.one_in(2) {
            if let Some(entry) = self.pick_entry(random, Placed::is_descended) {
                let own = entry.own_bound();
                let wrong = [
                    16,
                    entry.at,
                    entry.end - 16,
                    own,
                    own + 16,
                    entry.end + 8,
                    u32::MAX,
                ];
                set(&mut self.image, entry.at as usize + 4, random.pick(&wrong));
                seal_header(&mut self.image, entry.at as usize);
                return Some(entry.at);
            }
        }
        let entry = self.pick_entry(random, |_| true)?;
        let bound = entry.bound;
        let wrong = [
            16,
            32,
            entry.at,
            entry.end - 16,
            bound,
            bound + 16,
            0xFFFF_FFF0,
        ];
        self.set_next(entry, random.pick(&wrong));
        Some(entry.at)
    }

    fn break_link(&mut self, random: &mut Random) -> Option<u32> {
        let link = |entry: &Placed| entry.file_type == FileType::HardLink || entry.is_dot();
        let entry = self.pick_entry(random, link)?;
        let full_size = self.rom.full_size;
        let entries = &self.rom.entries;
        let mut wrong = vec![
            0,
            16,
            entry.at + 16,
            entry.at + 8,
            full_size,
            entry.at | 1,
            u32::MAX,
        ];
        if entry.file_type == FileType::HardLink {
            let links = entries
                .iter()
                .filter(|other| other.file_type == FileType::HardLink);
            wrong.extend(links.map(|other| other.at));
        }
        if let Some(other) = entries.iter().find(|other| other.file_type.has_content()) {
            wrong.extend([other.at + 2, other.data]);
        }
        wrong.retain(|aim| {
            entries.iter().all(|other| {
                other.at != *aim
                    || (entry.file_type == FileType::HardLink
                        && other.file_type == FileType::HardLink)
            })
        });
        set(&mut self.image, entry.at as usize + 4, random.pick(&wrong));
        seal_header(&mut self.image, entry.at as usize);
        Some(entry.at)
    }
}
