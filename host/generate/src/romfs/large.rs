//! Allowed romfs images with many entries, of a plain and known form.

use reference::romfs::FileType;

use super::builder::{Rom, RomBuilder};

const LABEL: &[u8] = b"large";

/// Makes an image of one list: empty files, and then hard links that lead to them in turn.
///
/// Names are `f` or `l` and a number of eight digits.
pub fn flat_rom(files: usize, links: usize) -> Rom {
    let mut rom = RomBuilder::new(LABEL);
    let mut last = None;
    for number in 0..files + links {
        let link = number.checked_sub(files);
        let (letter, file_type) =
            link.map_or(('f', FileType::RegularFile), |_| ('l', FileType::HardLink));
        let name = format!("{letter}{:08}", link.unwrap_or(number));
        let index = rom.entry(name.as_bytes(), file_type, 1);
        if let Some(link) = link {
            let aim = rom.entries[link % files].at;
            rom.set_info(index, aim);
        }
        rom.chain(last, index);
        last = Some(index);
    }
    rom.finish()
}

/// Makes an image of a tree: each directory down to a depth has so many directories, and those
/// at that depth so many files.
///
/// Names are `d` or `f` and a number of two digits; the root is at depth 1.
pub fn tree_rom(width: usize, depth: usize, content: usize) -> Rom {
    let mut tree = Tree {
        width,
        depth,
        content,
        rom: RomBuilder::new(LABEL),
    };
    tree.list(1);
    tree.rom.finish()
}

struct Tree {
    width: usize,
    depth: usize,
    content: usize,
    rom: RomBuilder,
}

impl Tree {
    /// Adds a list at a depth, and all lists below it.
    fn list(&mut self, depth: usize) {
        let mut last = None;
        for number in 0..self.width {
            let index = if depth < self.depth {
                self.directory(&format!("d{number:02}"), depth)
            } else {
                self.file(&format!("f{number:02}"), depth)
            };
            self.rom.chain(last, index);
            last = Some(index);
        }
    }

    /// Adds a directory with its list, and gives its index.
    fn directory(&mut self, name: &str, depth: usize) -> usize {
        let index = self.rom.entry(name.as_bytes(), FileType::Directory, depth);
        self.rom.descend(index);
        self.list(depth + 1);
        index
    }

    /// Adds a file, and gives its index.
    fn file(&mut self, name: &str, depth: usize) -> usize {
        let file_type = FileType::RegularFile;
        let index = self.rom.entry(name.as_bytes(), file_type, depth);
        self.rom.content(self.content).fill(file_type as u8);
        index
    }
}
