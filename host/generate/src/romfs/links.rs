//! romfs images full of links that are hard to check, each of a family that has one of every length.

use reference::romfs::FileType;

use super::builder::{Rom, RomBuilder};
use crate::Random;

const LABEL: &[u8] = b"links";

/// The volume header, and each header with a short name.
const HEADER: usize = 32;

/// So many equal parts has an image.
const PARTS: usize = 256;

/// A family of images.
#[derive(Clone, Copy, Debug)]
pub struct Family {
    /// What its links lead to.
    pub title: &'static str,
    /// Makes the image of a length, a multiple of 32,768 from 65,536 on.
    pub make: fn(usize) -> Rom,
}

/// All families.
pub const FAMILIES: [Family; 12] = [
    family("last of each part", part_ends),
    family("below a long name", |length| below_long_names(length, 1)),
    family("below seven long names", |length| {
        below_long_names(length, 7)
    }),
    family("below a long name in each part", below_each_part),
    family("below directories anywhere", below_anywhere),
    family("end of eight nested lists", nested_lists),
    family("files anywhere", files_anywhere),
    family("files anywhere, the last link bad", last_link_bad),
    family("files in reverse order", reversed),
    family("farthest header", farthest),
    family("last header", last_header),
    family("any header, by dots", dots),
];

const fn family(title: &'static str, make: fn(usize) -> Rom) -> Family {
    Family { title, make }
}

/// A list of so many files in an image of a length; the last one's content fills the rest.
pub fn plain_rom(length: usize, files: usize) -> Rom {
    let (mut rom, mut root) = start();
    for _ in 0..files {
        root.add(&mut rom, b"file", FileType::RegularFile, 0);
    }
    let rest = length - rom.image.len();
    rom.content(rest);
    rom.finish()
}

/// A list that entries are added to.
struct List {
    depth: usize,
    last: Option<usize>,
}

impl List {
    const fn at(depth: usize) -> Self {
        Self { depth, last: None }
    }

    /// Adds an entry with a word spec.info.
    fn add(&mut self, rom: &mut RomBuilder, name: &[u8], file_type: FileType, info: usize) {
        let index = rom.entry(name, file_type, self.depth);
        rom.set_info(index, info as u32);
        rom.chain(self.last, index);
        self.last = Some(index);
    }

    /// Adds a directory whose header has so many bytes; the next entry is the first of its list.
    fn descend(&mut self, rom: &mut RomBuilder, header: usize) {
        let name = vec![b'd'; header - 17];
        self.add(rom, &name, FileType::Directory, 0);
        rom.descend(rom.entries.len() - 1);
    }

    /// Adds links to a header up to an offset.
    fn links(&mut self, rom: &mut RomBuilder, target: usize, end: usize) {
        while rom.image.len() < end {
            self.add(rom, b"link", FileType::HardLink, target);
        }
    }
}

fn start() -> (RomBuilder, List) {
    (RomBuilder::new(LABEL), List::at(1))
}

/// Adds the only entry of a list, a file, and gives its offset.
fn lone_file(rom: &mut RomBuilder, depth: usize) -> usize {
    let at = rom.image.len();
    List::at(depth).add(rom, b"file", FileType::RegularFile, 0);
    at
}

/// The offset of a header in an image of short names alone, by its number from 0.
const fn offset(number: usize) -> usize {
    HEADER * (number + 1)
}

/// One list of short names: for each number a link to an offset, or a file.
fn one_list(length: usize, mut target: impl FnMut(usize) -> Option<usize>) -> Rom {
    let (mut rom, mut root) = start();
    for number in 0..length / HEADER - 1 {
        match target(number) {
            Some(to) => root.add(&mut rom, b"link", FileType::HardLink, to),
            None => root.add(&mut rom, b"file", FileType::RegularFile, 0),
        }
    }
    rom.finish()
}

/// Links to the last headers of the parts in turn, which are files.
fn part_ends(length: usize) -> Rom {
    let part = length / PARTS;
    let mut ends = (1..=PARTS).map(|number| number * part - HEADER).cycle();
    one_list(length, |number| match offset(number + 1) % part {
        0 => None,
        _ => ends.next(),
    })
}

/// Links to a file below nested directories. With the file the first one's header ends a part, others are as long as one.
fn below_long_names(length: usize, directories: usize) -> Rom {
    let (part, (mut rom, mut root)) = (length / PARTS, start());
    root.descend(&mut rom, part - 2 * HEADER);
    for depth in 2..=directories {
        List::at(depth).descend(&mut rom, part);
    }
    let file = lone_file(&mut rom, directories + 1);
    root.links(&mut rom, file, length);
    rom.finish()
}

/// Links to files in turn: one in each part, below a directory whose header is the half of the part in the middle.
fn below_each_part(length: usize) -> Rom {
    let (part, (mut rom, mut root)) = (length / PARTS, start());
    for number in 0..PARTS {
        let at = number * part + part / 4;
        let other = (number * 97 + 31) % PARTS * part + part / 4 * 3;
        root.links(&mut rom, other, at);
        root.descend(&mut rom, part / 2);
        lone_file(&mut rom, 2);
        root.links(&mut rom, other, (number + 1) * part);
    }
    rom.finish()
}

/// In turn a directory, a file below it, and a link to one of these files, drawn.
fn below_anywhere(length: usize) -> Rom {
    let (mut random, (mut rom, mut root)) = (Random::new(1), start());
    let groups = (length / HEADER - 1) / 3;
    for _ in 0..groups {
        root.descend(&mut rom, HEADER);
        lone_file(&mut rom, 2);
        let target = offset(random.below(groups) * 3 + 1);
        root.add(&mut rom, b"link", FileType::HardLink, target);
    }
    root.links(&mut rom, offset(1), length);
    rom.finish()
}

/// Eight lists of equal length, each but the root's in the last directory of the one above; links to the file at the end.
fn nested_lists(length: usize) -> Rom {
    let (mut rom, _) = start();
    let file = length - HEADER;
    for depth in 1..8 {
        let mut list = List::at(depth);
        list.links(&mut rom, file, depth * (length / 8));
        list.descend(&mut rom, HEADER);
    }
    let mut deepest = List::at(8);
    deepest.links(&mut rom, file, file);
    deepest.add(&mut rom, b"file", FileType::RegularFile, 0);
    rom.finish()
}

/// A file and a link in turn; each link leads to a file that is drawn.
fn files_anywhere(length: usize) -> Rom {
    let mut drawn = drawn_files(length);
    one_list(length, |number| (number % 2 == 1).then(&mut drawn))
}

/// The same, but the last header is a link to its own name.
fn last_link_bad(length: usize) -> Rom {
    let mut drawn = drawn_files(length);
    one_list(length, |number| match offset(number) {
        at if at == length - HEADER => Some(at + 16),
        _ => (number % 2 == 1).then(&mut drawn),
    })
}

/// Draws headers of even number, but the last.
fn drawn_files(length: usize) -> impl FnMut() -> usize {
    let (mut random, files) = (Random::new(1), (length / HEADER - 1) / 2);
    move || offset(2 * random.below(files))
}

/// Links, then as many files; the first link leads to the last file, and so on.
fn reversed(length: usize) -> Rom {
    let links = (length / HEADER - 1) / 2;
    one_list(length, |number| {
        (number < links).then(|| length - offset(number))
    })
}

/// Files at both ends; each link leads to the one that is farther away.
fn farthest(length: usize) -> Rom {
    let last = length - HEADER;
    one_list(length, |number| match offset(number) {
        at if at == HEADER || at == last => None,
        at if at < length / 2 => Some(last),
        _ => Some(HEADER),
    })
}

/// Links to the file in the last bytes.
fn last_header(length: usize) -> Rom {
    let last = length - HEADER;
    one_list(length, |number| (offset(number) != last).then_some(last))
}

/// Nothing but "." and "..", which lead to headers that are drawn.
fn dots(length: usize) -> Rom {
    let (mut random, (mut rom, mut root)) = (Random::new(1), start());
    let count = length / HEADER - 1;
    for number in 0..count {
        let name: &[u8] = if number % 2 == 0 { b"." } else { b".." };
        let target = offset(random.below(count));
        root.add(&mut rom, name, FileType::Directory, target);
    }
    rom.finish()
}

#[cfg(test)]
mod tests;
