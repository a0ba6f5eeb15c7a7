//! Times of the romfs requests.

use std::hint::black_box;
use std::time::Duration;

use generate::romfs::{flat_rom, plain_rom, tree_rom, Family, Rom, FAMILIES};
use reference::romfs as reference_romfs;

use crate::race::Race;
use crate::table::{digits, Table, BOTH};

/// The lanes of links, which are compared with a list of as many files in an image of the same length.
const LINKS: [&str; 2] = ["proved", "plain list"];

/// Check and find on images of many entries.
pub fn requests(rounds: usize) -> Vec<Table> {
    let tree = tree_rom(16, 3, 220);
    let files = flat_rom(16_000, 0);
    let mut table = Table::new("romfs: images of many entries", &BOTH);
    let rows: [(&str, &Rom, &[u8]); 2] = [
        ("tree of three levels", &tree, b"d15"),
        ("one list", &files, b"f00015999"),
    ];
    for (title, made, name) in rows {
        let title = format!(
            "{title}, {} entries in {} bytes",
            digits(made.entries.len() as f64),
            digits(made.image.len() as f64)
        );
        table.row(&format!("check, {title}"), &check(rounds, made));
        let times = find(rounds, made, name);
        table.row(&format!("find the last of the root, {title}"), &times);
    }
    vec![table]
}

fn check(rounds: usize, made: &Rom) -> Vec<f64> {
    let image = &made.image[..];
    Race::new(rounds)
        .lane(|| proved::romfs::check(black_box(image)).expect("check"))
        .lane(|| reference_romfs::check(black_box(image)).expect("check"))
        .run()
}

fn find(rounds: usize, made: &Rom, name: &[u8]) -> Vec<f64> {
    let image = &made.image[..];
    Race::new(rounds)
        .lane(|| proved::romfs::find(black_box(image), 0, name).expect("find"))
        .lane(|| reference_romfs::find(black_box(image), 0, name).expect("find"))
        .run()
}

/// The check of links beside that of a plain list. The two do not take turns: where the first lasts long, the second still
/// has rounds enough.
fn check_links(rounds: usize, links: &Rom) -> Vec<f64> {
    let plain = plain_rom(links.image.len(), links.entries.len());
    [(links, 400), (&plain, 200)]
        .map(|(rom, longest)| alone(rounds, rom, Duration::from_millis(longest)))
        .into()
}

/// The proved check by itself, of an image that it may refuse.
fn alone(rounds: usize, made: &Rom, longest: Duration) -> f64 {
    let check = || proved::romfs::check(black_box(&made.image));
    Race::new(rounds).within(longest).lane(check).run()[0]
}

/// How the check grows with the number of entries, without hard links and with.
pub fn growth(rounds: usize) -> Vec<Table> {
    let mut files = Table::new("romfs: check of one list, by entries", &BOTH);
    let title = "romfs: check of one list with a quarter hard links, by entries";
    let mut links = Table::new(title, &LINKS);
    for count in [1_000, 2_000, 4_000, 8_000, 16_000] {
        let row = digits(count as f64);
        files.row(&row, &check(rounds, &flat_rom(count, 0)));
        let linked = flat_rom(count / 4 * 3, count / 4);
        links.row(&row, &check_links(rounds, &linked));
    }
    vec![files, links]
}

/// The check of the families of links, by the length of the image.
pub fn families(rounds: usize) -> Vec<Table> {
    LENGTHS.map(|length| of_length(rounds, length)).into()
}

/// The lengths of the images: in words, and in bytes.
pub const LENGTHS: [(&str, usize); 5] = [
    ("64 KiB", 1 << 16),
    ("256 KiB", 1 << 18),
    ("1 MiB", 1 << 20),
    ("4 MiB", 1 << 22),
    ("16 MiB", 1 << 24),
];

/// The title of the families of a length in words.
pub fn families_title(length: &str) -> String {
    format!("romfs: check of images of {length}")
}

fn of_length(rounds: usize, (words, length): (&str, usize)) -> Table {
    let mut table = Table::new(&families_title(words), &LINKS);
    for Family { title, make } in FAMILIES {
        table.row(title, &check_links(rounds, &make(length)));
    }
    table
}
