//! romfs images of small headers at equal distances whose words are left to chance.

use reference::romfs::FileType;

use super::builder::{Rom, RomBuilder};
use crate::Random;

const HEADER: u32 = 32;

/// Makes an image of sound headers that lead anywhere, mostly forwards.
pub fn grid_rom(random: &mut Random) -> Rom {
    let count = random.between(1, 24) as u32;
    let full_size = HEADER * (count + 1);
    let mut rom = RomBuilder::new(b"V");
    for _ in 0..count {
        add_header(random, &mut rom, full_size);
    }
    rom.finish()
}

/// Adds a header of any type.
fn add_header(random: &mut Random, rom: &mut RomBuilder, full_size: u32) {
    let file_type = FileType::from_bits(random.pick(&[0, 1, 1, 1, 1, 2, 2, 3, 4, 5, 6, 7]));
    let end = rom.image.len() as u32 + HEADER;
    let following = if end < full_size { end } else { 0 };
    let later = end + HEADER * random.below(4) as u32;
    let anywhere = 16 * random.below(full_size as usize / 16 + 2) as u32;
    let next = random.pick(&[0, following, following, following, later, later, anywhere]);
    let first = random.pick(&[0, following, following, following, later, anywhere]);
    let name = random.pick(&[&b"a"[..], b"b", b"ab", b".", b".."]);
    let index = rom.entry(name, file_type, 1);
    rom.entries[index].next = if random.one_in(30) { anywhere } else { next };
    rom.entries[index].first = first;
    if random.one_in(4) {
        rom.set_executable(index);
    }
    match file_type {
        FileType::HardLink | FileType::Directory => rom.set_info(index, first),
        FileType::BlockDevice | FileType::CharDevice => rom.set_info(index, random.word()),
        _ => {}
    }
}
