//! Allowed romfs images of many short headers, with many links, in lists long and deep.

use reference::romfs::FileType;

use super::builder::{Rom, RomBuilder};
use crate::Random;

const DEEPEST: usize = 8;

/// Makes a tree of about so many entries; a few of its links may lead to no right header.
pub fn forest_rom(random: &mut Random, count: usize) -> Rom {
    let mut forest = Forest {
        width: random.pick(&[3, 8, 40, count]),
        count,
        rom: RomBuilder::new(b""),
    };
    while forest.rom.entries.len() < count {
        let mut entries = forest.rom.entries.iter();
        let last = entries.rposition(|entry| entry.depth == 1);
        forest.list(random, 1, last);
    }
    let astray = random.one_in(2);
    forest.aim(random, astray);
    forest.rom.finish()
}

struct Forest {
    /// The mean length of a list.
    width: usize,
    count: usize,
    rom: RomBuilder,
}

impl Forest {
    /// Adds a list, or more of the list that an entry stands in.
    fn list(&mut self, random: &mut Random, depth: usize, mut last: Option<usize>) {
        loop {
            let index = self.entry(random, depth);
            self.rom.chain(last, index);
            last = Some(index);
            let descended = self.rom.entries[index].is_descended();
            if descended && depth < DEEPEST && !random.one_in(4) {
                self.rom.descend(index);
                self.list(random, depth + 1, None);
            }
            if self.rom.entries.len() >= self.count || random.one_in(self.width) {
                return;
            }
        }
    }

    /// Adds an entry whose links are not yet set, and gives its index.
    fn entry(&mut self, random: &mut Random, depth: usize) -> usize {
        use FileType::{Directory, HardLink, RegularFile};
        let file_type = random.pick(&[
            HardLink,
            HardLink,
            Directory,
            Directory,
            RegularFile,
            RegularFile,
        ]);
        let name = random.pick(&[&b"a"[..], b"b", b"abc", b".", b".."]);
        let index = self.rom.entry(name, file_type, depth);
        if file_type == RegularFile {
            let size = random.pick(&[0, 0, 0, 1, 16, 40]);
            random.fill(self.rom.content(size));
        }
        index
    }

    /// Lets links lead to entries, and with `astray` one in some hundred to anything else.
    fn aim(&mut self, random: &mut Random, astray: bool) {
        let (all, targets) = self.rom.aims();
        let full_size = self.rom.image.len();
        for index in 0..self.rom.entries.len() {
            let entry = &self.rom.entries[index];
            let aim = match entry.file_type {
                FileType::HardLink => random.choose(&targets).unwrap_or(0),
                _ if entry.is_dot() => random.pick(&all),
                _ => continue,
            };
            let any = random.below(full_size) as u32;
            let near = random.pick(&all) + random.pick(&[4, 8, 15, 16]);
            let wrong = random.pick(&[any, any & !15, near, near, full_size as u32, 0]);
            let strays = astray && random.one_in(200);
            self.rom.set_info(index, if strays { wrong } else { aim });
        }
    }
}

#[cfg(test)]
mod tests {
    use super::*;
    use reference::romfs;

    #[test]
    fn forests_are_accepted_or_have_a_bad_link() {
        let mut random = Random::new(1);
        let mut refused = 0;
        let mut deepest = 0;
        for _ in 0..60 {
            let made = forest_rom(&mut random, 600);
            // Some headers share one of 256 equal parts of the image.
            assert!(made.entries.len() >= 600 && made.full_size > 256 * 64);
            match romfs::check(&made.image) {
                Ok(()) => {}
                Err(refusal) => {
                    assert_eq!(refusal.number, 29);
                    refused += 1;
                }
            }
            let depths = made.entries.iter().map(|entry| entry.depth);
            deepest = depths.fold(deepest, usize::max);
        }
        assert_eq!(deepest, DEEPEST);
        assert!((10..50).contains(&refused), "{refused}");
    }
}
