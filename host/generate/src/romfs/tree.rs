//! Allowed romfs images from random trees.

use reference::romfs::FileType;

use super::builder::{Rom, RomBuilder};
use crate::Random;

/// What an image is to hold.
#[derive(Clone, Copy, Debug)]
pub struct RomPlan {
    /// The number of entries to aim at.
    pub entries: usize,
    /// The greatest length of a content.
    pub content: usize,
    /// The depth down to which one directory stands in another; 9 is one too deep.
    pub spine: usize,
}

impl RomPlan {
    /// Gives a plan for a small image.
    pub fn small(random: &mut Random) -> Self {
        Self {
            entries: random.pick(&[0, 1, 2, 3, 4, 5, 6, 8, 10, 14]),
            content: random.pick(&[0, 16, 40, 40, 100, 700]),
            spine: random.pick(&[1, 1, 1, 2, 2, 3, 4, 8]),
        }
    }
}

/// Makes an image by a plan, which is allowed unless its spine is deeper than 8.
pub fn rom(random: &mut Random, plan: RomPlan) -> Rom {
    let label = label(random);
    let rom = RomBuilder::new(&label);
    let mut generator = Generator { random, plan, rom };
    generator.name_noise(16 + label.len());
    if plan.entries > 0 || plan.spine > 1 {
        generator.list(1, true);
        generator.gap();
    }
    generator.aim_links();
    let mut made = generator.rom.finish();
    let behind = random.pick(&[0, 0, 0, 1, 15, 16, 64]);
    made.image.extend(random.bytes(behind));
    made
}

/// A volume name, at times an empty one.
fn label(random: &mut Random) -> Vec<u8> {
    let length = name_length(random);
    if random.one_in(4) {
        Vec::new()
    } else {
        random.name(length)
    }
}

/// A length of a name, often at the edge of a 16-byte unit.
fn name_length(random: &mut Random) -> usize {
    random.pick(&[1, 1, 2, 3, 6, 14, 15, 16, 17, 31, 32])
}

struct Generator<'r> {
    random: &'r mut Random,
    plan: RomPlan,
    rom: RomBuilder,
}

impl Generator<'_> {
    /// Places the entries of one list; one of them carries the spine on if there is more of it.
    fn list(&mut self, depth: usize, on_spine: bool) {
        let carries = on_spine && depth < self.plan.spine;
        let left = self.plan.entries.saturating_sub(self.rom.entries.len());
        let most = if depth == 1 {
            left.clamp(1, 8)
        } else {
            left.clamp(1, 3)
        };
        let count = self.random.between(1, most);
        let carrier = self.random.below(count);
        let mut last = None;
        for number in 0..count {
            let spine = carries && number == carrier;
            let index = self.entry(depth, spine);
            self.rom.chain(last, index);
            last = Some(index);
            if number + 1 < count {
                self.gap();
            }
        }
    }

    /// Places an entry, and the lists below it, and gives its index.
    fn entry(&mut self, depth: usize, spine: bool) -> usize {
        let file_type = if spine {
            FileType::Directory
        } else {
            self.file_type()
        };
        let name = self.name(file_type, spine);
        let size = self.size(file_type);
        let index = self.rom.entry(&name, file_type, depth);
        if self.random.one_in(3) {
            self.rom.set_executable(index);
        }
        if matches!(file_type, FileType::BlockDevice | FileType::CharDevice) {
            self.rom.set_info(index, self.random.word());
        }
        let header = self.rom.entries[index].at as usize;
        self.name_noise(header + 16 + name.len());
        self.random.fill(self.rom.content(size));
        let few = self.rom.entries.len() < self.plan.entries;
        let wanted = few && depth < 8 && !self.random.one_in(4);
        if self.rom.entries[index].is_descended() && (spine || wanted) {
            self.gap();
            self.rom.descend(index);
            self.list(depth + 1, spine);
        }
        index
    }

    /// A type, links and directories more often than others.
    fn file_type(&mut self) -> FileType {
        use FileType::*;
        self.random.pick(&[
            HardLink,
            HardLink,
            Directory,
            Directory,
            Directory,
            RegularFile,
            RegularFile,
            SymbolicLink,
            BlockDevice,
            CharDevice,
            Socket,
            Fifo,
        ])
    }

    /// A name for an entry, now and then "." or "..", which carry no spine.
    fn name(&mut self, file_type: FileType, spine: bool) -> Vec<u8> {
        let dot = !spine && file_type == FileType::Directory && self.random.one_in(3);
        if dot || (!spine && self.random.one_in(25)) {
            self.random.pick(&[&b"."[..], b".."]).to_vec()
        } else {
            self.ordinary_name()
        }
    }

    /// A name that makes no directory a special one, now and then one used before.
    fn ordinary_name(&mut self) -> Vec<u8> {
        loop {
            let length = name_length(self.random);
            let name = match self.rom.entries.last() {
                Some(before) if self.random.one_in(12) => before.name.clone(),
                _ => self.random.name(length),
            };
            if !matches!(&name[..], b"." | b"..") {
                return name;
            }
        }
    }

    /// A length of the content, which is 0 for types that have none.
    fn size(&mut self, file_type: FileType) -> usize {
        if !file_type.has_content() {
            return 0;
        }
        let most = self.plan.content;
        match self.random.below(4) {
            0 => 0,
            1 => self.random.pick(&[1, 15, 16, 17]).min(most),
            _ => self.random.below(most + 1),
        }
    }

    /// At times puts noise behind the zero of the name that the image ends with.
    fn name_noise(&mut self, zero: usize) {
        if self.random.one_in(4) {
            self.random.fill(&mut self.rom.image[zero + 1..]);
        }
    }

    /// At times leaves room before what follows.
    fn gap(&mut self) {
        if self.random.one_in(4) {
            let length = 16 * self.random.between(1, 3);
            self.rom.image.extend(self.random.bytes(length));
        }
    }

    /// Lets hard links and "." and ".." lead to entries; a link with no possible aim becomes a pipe.
    fn aim_links(&mut self) {
        let (all, targets) = self.rom.aims();
        for index in 0..self.rom.entries.len() {
            let entry = &mut self.rom.entries[index];
            if entry.is_dot() {
                self.rom.set_info(index, self.random.pick(&all));
            } else if entry.file_type == FileType::HardLink {
                match self.random.choose(&targets) {
                    Some(aim) => self.rom.set_info(index, aim),
                    None => {
                        entry.file_type = FileType::Fifo;
                        self.rom.image[entry.at as usize + 3] |= 7;
                    }
                }
            }
        }
    }
}
