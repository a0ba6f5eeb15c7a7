//! Each cause of a refusal by a romfs image is told where it holds.

use super::super::{cause, Asked};
use crate::words;
use generate::romfs::{damage_rom, rom, scramble_rom, RomPlan};
use generate::Random;
use proved::{romfs, Refusal};

/// An image with directory etc at 32, in it hosts at 64 with 5 bytes and "." at 112, then file run
/// at 144 and the hard link cfg to hosts at 176; it ends at 208.
fn sample() -> Vec<u8> {
    let mut image = b"-rom1fs-".to_vec();
    image.resize(208, 0);
    image[8..12].copy_from_slice(&208u32.to_be_bytes());
    image[16..20].copy_from_slice(b"PUMP");
    entry(&mut image, 32, [144 | 1, 64, 0], b"etc");
    entry(&mut image, 64, [112 | 2, 0, 5], b"hosts");
    entry(&mut image, 112, [1, 32, 0], b".");
    entry(&mut image, 144, [176 | 2, 0, 0], b"run");
    entry(&mut image, 176, [0, 64, 0], b"cfg");
    seal(&mut image);
    image
}

/// Puts a header of these words and its name, with a right checksum.
fn entry(image: &mut [u8], at: usize, words: [u32; 3], name: &[u8]) {
    image[at..at + 12].copy_from_slice(&words.map(u32::to_be_bytes).concat());
    image[at + 16..at + 32].fill(0);
    image[at + 16..at + 16 + name.len()].copy_from_slice(name);
    right(image, at..at + 32);
}

/// Sets the checksum in the fourth word of a part.
fn right(image: &mut [u8], part: std::ops::Range<usize>) {
    let at = part.start + 12;
    image[at..at + 4].fill(0);
    let sum = super::header::sum(&image[part]);
    image[at..at + 4].copy_from_slice(&sum.wrapping_neg().to_be_bytes());
}

fn seal(image: &mut [u8]) {
    right(image, 0..image.len());
}

/// The cause that the check of the sample gives after a change.
fn changed(change: impl Fn(&mut Vec<u8>)) -> String {
    let mut image = sample();
    change(&mut image);
    let refusal = romfs::check(&image).unwrap_err();
    cause(&image, refusal, Asked::Check)
}

/// The same where one header gets other words.
fn with(at: usize, words: [u32; 3], name: &[u8]) -> String {
    changed(|image| {
        entry(image, at, words, name);
        seal(image);
    })
}

#[test]
fn the_sample_is_accepted() {
    assert_eq!(romfs::check(&sample()), Ok(()));
}

#[test]
fn a_volume_header_is_told() {
    assert_eq!(
        changed(|image| image.truncate(31)),
        "the image has 31 bytes, under 32"
    );
    let sizes = [
        (16, "the full size is 16, under 32"),
        (224, "the full size is 224, and the image has 208 bytes"),
        (200, "the full size is 200, no multiple of 16"),
    ];
    for (size, told) in sizes {
        assert_eq!(changed(|image| image[11] = size), told);
    }
    assert_eq!(
        changed(|image| image[15] = image[15].wrapping_add(1)),
        "the first 208 bytes have a wrong checksum: they add up to 0x00000001, not 0"
    );
    let endless = |image: &mut Vec<u8>| {
        image[16..].fill(7);
        seal(image);
    };
    assert_eq!(
        changed(endless),
        "the volume name has no end before 208, where the image ends"
    );
}

#[test]
fn the_wrong_part_of_a_header_is_told() {
    let unended = |image: &mut Vec<u8>| {
        image[192..].fill(7);
        seal(image);
    };
    assert_eq!(
        changed(unended),
        "header at 176 has a name without an end before 208, where its list ends"
    );
    let unsummed = |image: &mut Vec<u8>| {
        image[79] = image[79].wrapping_sub(1);
        seal(image);
    };
    assert_eq!(
        changed(unsummed),
        "header at 64 has a wrong checksum: its bytes add up to 0xffffffff, not 0"
    );
    let causes = [
        (
            with(64, [112 | 2, 0, 49], b"hosts"),
            "header at 64 has size 49, so it ends past 144, where its list ends",
        ),
        (
            with(144, [176 | 2, 0, 0], b""),
            "header at 144 has an empty name",
        ),
        (
            with(144, [176 | 6, 9, 0], b"run"),
            "header at 144 has spec.info 9, which is 0 for a socket",
        ),
        (
            with(144, [176 | 4, 0, 9], b"sda"),
            "header at 144 has size 9, which is 0 for a block device",
        ),
    ];
    for (told, expected) in causes {
        assert_eq!(told, expected);
    }
}

#[test]
fn a_header_out_of_its_place_is_told() {
    let causes = [
        (
            with(144, [32 | 2, 0, 0], b"run"),
            "file at 144 (run) has its next header at 32, before its own end at 176",
        ),
        (
            with(64, [144 | 2, 0, 5], b"hosts"),
            "file at 64 (hosts) has its next header at 144, not before 144, where its room ends",
        ),
        (
            with(32, [144 | 1, 48, 0], b"etc"),
            "directory at 32 (etc) has its first header at 48, before its own end at 64",
        ),
        (
            with(32, [144 | 1, 144, 0], b"etc"),
            "directory at 32 (etc) has its first header at 144, not before 144, \
             where its room ends",
        ),
        (
            with(32, [144 | 1, 72, 0], b"etc"),
            "directory at 32 (etc) has its first header at 72, no multiple of 16",
        ),
    ];
    for (told, expected) in causes {
        assert_eq!(told, expected);
    }
}

#[test]
fn a_list_that_lies_too_deep_is_told() {
    let mut image = b"-rom1fs-".to_vec();
    image.resize(32 + 9 * 32, 0);
    let length = image.len() as u32;
    image[8..12].copy_from_slice(&length.to_be_bytes());
    for depth in 0..8 {
        let at = 32 + 32 * depth;
        entry(&mut image, at, [1, at as u32 + 32, 0], b"d");
    }
    entry(&mut image, 288, [2, 0, 0], b"f");
    seal(&mut image);
    let refusal = romfs::check(&image).unwrap_err();
    assert_eq!(
        cause(&image, refusal, Asked::Check),
        "directory at 256 (d) has a list at depth 9, at most 8 are allowed"
    );
}

#[test]
fn where_a_link_leads_is_told() {
    assert_eq!(
        with(176, [0, 80, 0], b"cfg"),
        "hard link at 176 (cfg) leads to 80, where no header is"
    );
    assert_eq!(
        with(176, [0, 176, 0], b"cfg"),
        "hard link at 176 (cfg) leads to 176, which is a hard link too"
    );
    assert_eq!(
        with(112, [1, 0, 0], b".."),
        "directory at 112 (..) leads to 0, where no header is"
    );
}

#[test]
fn a_refused_find_or_content_is_told() {
    let image = sample();
    let finds = [
        (0, "the root directory has no entry hosts2"),
        (32, "directory at 32 (etc) has no entry hosts2"),
        (112, "directory at 112 (.) has no entry hosts2"),
        (144, "file at 144 (run) is no directory"),
        (150, "at 150 is no header of the tree"),
    ];
    for (at, told) in finds {
        let refusal = romfs::find(&image, at, b"hosts2").unwrap_err();
        assert_eq!(cause(&image, refusal, Asked::Find(at, b"hosts2")), told);
    }
    let refusal = romfs::content(&image, 32).unwrap_err();
    assert_eq!(
        cause(&image, refusal, Asked::Content(32)),
        "directory at 32 (etc) is no file and no symbolic link"
    );
    let refusal = romfs::entry(&image, 16).unwrap_err();
    let told = "at 16 is no header of the tree";
    assert_eq!(cause(&image, refusal, Asked::Header(16)), told);
    assert_eq!(cause(&image, refusal, Asked::Content(16)), told);
}

#[test]
fn an_image_without_entries_has_no_header() {
    let mut image = sample()[..32].to_vec();
    image[8..12].copy_from_slice(&32u32.to_be_bytes());
    seal(&mut image);
    let refusal = romfs::entry(&image, 0).unwrap_err();
    let told = "at 0 is no header of the tree";
    assert_eq!(cause(&image, refusal, Asked::Header(0)), told);
}

#[test]
fn a_cause_that_does_not_hold_is_not_told() {
    let asked = [
        Asked::Check,
        Asked::Find(0, b"run"),
        Asked::Find(32, b"hosts"),
        Asked::Header(64),
        Asked::Content(64),
    ];
    for number in 21..=31 {
        for place in [0, 16, 32, 64, 112, 144, 176] {
            let refusal = Refusal { number, place };
            // The sample's only directory with a list may be said to lie too deep.
            let told = asked.map(|asked| cause(&sample(), refusal, asked));
            let expected = words::refusal(refusal);
            let holds = told.iter().all(|told| *told == expected);
            assert_eq!(holds, (number, place) != (28, 32), "{number} {place}");
        }
    }
}

#[test]
fn any_image_and_any_refusal_have_words() {
    let mut random = Random::new(64);
    for _ in 0..2000 {
        let plan = RomPlan::small(&mut random);
        let made = rom(&mut random, plan);
        let image = scramble_rom(&mut random, &made);
        for number in 21..=31 {
            let place = random.below(image.len() + 20) as u32;
            let place = random.pick(&[place, place & !15, u32::MAX]);
            let asked = [
                Asked::Check,
                Asked::Find(place, b"x"),
                Asked::Header(place),
                Asked::Content(place),
            ];
            let asked = random.pick(&asked);
            assert_ne!(cause(&image, Refusal { number, place }, asked), "");
        }
    }
}

#[test]
fn a_generated_fault_is_told_with_its_place() {
    let mut random = Random::new(63);
    let mut told = [0; 30];
    for round in 0..9000 {
        let mut plan = RomPlan::small(&mut random);
        let rule = 21 + round % 9;
        if rule == 28 {
            plan.spine = 9;
        }
        let made = rom(&mut random, plan);
        let Some((image, _)) = damage_rom(&mut random, &made, rule) else {
            continue;
        };
        let refusal = romfs::check(&image).unwrap_err();
        let exact = cause(&image, refusal, Asked::Check);
        let general = refusal.number == 22;
        assert_eq!(exact == words::refusal(refusal), general, "{refusal:?}");
        let place = format!(" at {} ", refusal.place);
        assert!(refusal.number < 26 || exact.contains(&place), "{exact}");
        told[refusal.number as usize] += 1;
    }
    assert!(told[21..].iter().all(|count| *count > 300), "{told:?}");
}
