//! The map shows every block once, and every fault at its block.

mod picture;

use super::{text, Cell};
use crate::survey::{volume, Survey};
use generate::tfs::{any_volume, damage_volume, damage_volume_twice, scramble_volume};
use generate::Random;
use proved::tfs;
use std::collections::HashMap;

/// A volume of 80 blocks with TIMING, whose second block is marked free; a file of odd bytes, whose
/// first content block is claimed twice, so that another is marked and of no file; and a third file
/// without a name.
fn sample() -> Survey {
    let mut image = vec![0; 80 * 512];
    tfs::format(&mut image, b"PUMP").unwrap();
    tfs::create(&mut image, b"TIMING", 64).unwrap();
    tfs::create(&mut image, b"a<&\"\xff\\", 1500).unwrap();
    tfs::create(&mut image, b"LOST", 0).unwrap();
    image[512 + 3] &= !0x10;
    image[512 * 5 + 7] = 7;
    image[1024 + 44] = 0;
    volume(&image)
}

/// Any readable bytes: sound volumes, damaged ones, noise.
fn any(random: &mut Random) -> Survey {
    let made = any_volume(random, 300);
    let rules = (random.between(4, 7) as u32, random.between(4, 7) as u32);
    let image = match random.below(5) {
        0 => None,
        1 => damage_volume(random, &made, rules.0),
        2 => damage_volume_twice(random, &made, rules),
        3 => Some((scramble_volume(random, &made), reference::Refusal::plain(0))),
        _ => Some((random.bytes(9000), reference::Refusal::plain(0))),
    };
    volume(&image.map_or(made.image, |(image, _)| image))
}

/// The signs of the blocks in a text, by its rows and the folded ones.
fn drawn(text: &str) -> String {
    let mut signs = String::new();
    for line in text.lines().take_while(|line| !line.is_empty()) {
        let words: Vec<&str> = line.split_whitespace().collect();
        if let ["blocks", first, "to", last, "are", "free"] = words[..] {
            let [first, last] = [first, last].map(|word| word.parse::<usize>().unwrap());
            assert_eq!(first, signs.len());
            signs += &".".repeat(last + 1 - first);
        } else {
            assert_eq!(words[0].parse(), Ok(signs.len()));
            signs += &words[1..].concat();
        }
    }
    signs
}

/// The sign that a block with a fault has: the first of its faults counts.
fn marks(survey: &Survey) -> HashMap<usize, char> {
    let mut marks = HashMap::new();
    for fault in survey.faults().iter().filter(|fault| fault.number > 5) {
        let sign = match (fault.number, survey.blocks[fault.place as usize].marked) {
            (6, _) => '2',
            (_, true) => '!',
            (_, false) => '?',
        };
        marks.entry(fault.place as usize).or_insert(sign);
    }
    marks
}

#[test]
fn a_map_has_blocks_signs_files_and_counts() {
    let expected = "   0  #%/A?B!2 bC...... ........ ........ ........ ........ ........ ........
  64  ........ ........

# header  % map  / directory  . free  A inode  a content
2 claimed twice or more: 1
! marked used, no file has it: 1
? in use, marked free: 1

file  slot        size  blocks  name
Aa       0          64       2  TIMING
Bb       1        1500       4  a<&\"\\xff\\x5c
Cc       2           0       1  (no name)

volume PUMP: 80 blocks, 9 in use, 70 free
read by this tool from the bytes alone: 4 faults
  rule 4: slot 2 has no name
";
    assert_eq!(text(&sample(), 80, false), expected);
}

#[test]
fn every_block_has_its_sign() {
    let mut random = Random::new(71);
    for _ in 0..1000 {
        let survey = any(&mut random);
        let width = random.between(0, 120);
        let signs: String = survey.cells().iter().map(|cell| cell.sign()).collect();
        assert_eq!(drawn(&text(&survey, width, false)), signs);
    }
}

#[test]
fn faults_are_marked_at_their_blocks_and_nowhere_else() {
    let mut random = Random::new(72);
    let mut met = HashMap::new();
    for _ in 0..2000 {
        let survey = any(&mut random);
        let signs = drawn(&text(&survey, 80, false));
        let marked = signs.chars().enumerate();
        let marked: HashMap<usize, char> =
            marked.filter(|(_, sign)| "2!?".contains(*sign)).collect();
        assert_eq!(marked, marks(&survey));
        marked
            .values()
            .for_each(|sign| *met.entry(*sign).or_insert(0) += 1);
    }
    assert!(
        met.len() == 3 && met.values().all(|count| *count > 200),
        "{met:?}"
    );
}

#[test]
fn no_two_signs_are_alike() {
    let files = (0..25).flat_map(|slot| [Cell::Inode(slot), Cell::Content(slot)]);
    let others = super::FAULTS.into_iter().chain(super::PLAIN);
    let mut signs: Vec<char> = files.chain(others).map(Cell::sign).collect();
    signs.sort_unstable();
    let count = signs.len();
    signs.dedup();
    assert_eq!(signs.len(), count);
}

#[test]
fn colour_adds_nothing_but_colour() {
    let coloured = text(&sample(), 80, true);
    let mut parts = coloured.split("\x1b[");
    let mut plain = parts.next().unwrap().to_string();
    for part in parts {
        plain += part.split_once('m').unwrap().1;
    }
    assert_eq!(plain, text(&sample(), 80, false));
    for fault in [
        "\x1b[97;41m2\x1b[0m",
        "\x1b[30;43m!\x1b[0m",
        "\x1b[97;45m?\x1b[0m",
    ] {
        assert_eq!(coloured.matches(fault).count(), 2, "{fault:?}");
    }
}

#[test]
fn rows_fit_a_terminal_and_have_64_blocks_at_most() {
    let survey = volume(&vec![0xff; 4096 * 512]);
    for (width, columns) in [
        (200, 64),
        (77, 64),
        (76, 32),
        (41, 32),
        (40, 16),
        (23, 16),
        (22, 8),
    ] {
        let text = text(&survey, width, false);
        let rows: Vec<&str> = text.lines().take_while(|line| !line.is_empty()).collect();
        assert_eq!(rows.len(), 4096 / columns);
        assert!(rows.iter().all(|row| row.len() <= width), "{width}");
    }
}

#[test]
fn three_free_rows_in_succession_are_one_line() {
    for (blocks, rows) in [(3 * 64, 3), (4 * 64, 2), (4096, 2)] {
        let mut image = vec![0; blocks * 512];
        tfs::format(&mut image, b"").unwrap();
        let text = text(&volume(&image), 80, false);
        let drawn: Vec<&str> = text.lines().take_while(|line| !line.is_empty()).collect();
        assert_eq!(drawn.len(), rows);
        let folded = format!("      blocks 64 to {} are free", blocks - 1);
        assert_eq!(drawn[1] == folded, rows == 2);
    }
}

#[test]
fn an_image_without_blocks_has_a_map() {
    let told = text(&volume(&[7; 1535]), 80, false);
    assert!(told.ends_with(
        "\nvolume name missing, the image is too short: 0 blocks, 0 in use, 0 free\n\
         read by this tool from the bytes alone: 1 fault\n  \
         rule 1: the image has 1535 bytes, under 1536\n"
    ));
}
