use super::*;
use reference::romfs;

const LENGTH: usize = 1 << 16;

fn made(title: &str) -> Rom {
    let family = FAMILIES.iter().find(|family| family.title == title);
    (family.expect("family").make)(LENGTH)
}

#[test]
fn families_have_the_length_that_is_asked_for() {
    for length in [LENGTH, 1 << 18, LENGTH + (1 << 15)] {
        for family in FAMILIES {
            let made = (family.make)(length);
            assert_eq!(made.image.len(), length, "{}", family.title);
            assert_eq!(made.full_size as usize, length, "{}", family.title);
        }
    }
}

#[test]
fn all_families_are_allowed_but_the_one_with_a_bad_link_at_its_end() {
    for family in FAMILIES {
        let found = romfs::check(&(family.make)(LENGTH).image);
        let last = (LENGTH - HEADER) as u32;
        let bad = family.title.ends_with("bad");
        let refusal = found.err().map(|refusal| (refusal.number, refusal.place));
        assert_eq!(refusal, bad.then_some((29, last)), "{}", family.title);
    }
}

#[test]
fn a_plain_list_has_the_files_and_the_length_that_are_asked_for() {
    for files in [1, 1000, LENGTH / HEADER - 1] {
        let made = plain_rom(LENGTH, files);
        assert_eq!((made.image.len(), made.entries.len()), (LENGTH, files));
        assert!(romfs::check(&made.image).is_ok());
    }
}

#[test]
fn the_last_header_of_each_part_is_a_file_and_a_target() {
    let made = made("last of each part");
    let files = made
        .entries
        .iter()
        .filter(|entry| entry.file_type == FileType::RegularFile);
    let files: Vec<usize> = files.map(|entry| entry.at as usize).collect();
    let ends: Vec<usize> = (1..=PARTS)
        .map(|part| part * LENGTH / PARTS - HEADER)
        .collect();
    assert_eq!(files, ends);
    for at in ends {
        assert!(made
            .entries
            .iter()
            .any(|entry| leads_to(&made, entry.at) == at));
    }
}

/// The word spec.info of a header.
fn leads_to(made: &Rom, at: u32) -> usize {
    let word = &made.image[at as usize + 4..][..4];
    word.iter()
        .fold(0, |word, byte| word << 8 | usize::from(*byte))
}

#[test]
fn a_file_below_seven_long_names_is_at_depth_eight_and_all_links_lead_there() {
    let made = made("below seven long names");
    let (directories, rest) = made.entries.split_at(7);
    assert!(directories[1..]
        .iter()
        .all(|entry| entry.name.len() + 17 == LENGTH / PARTS));
    assert_eq!(
        (rest[0].depth, rest[0].file_type),
        (8, FileType::RegularFile)
    );
    for link in &rest[1..] {
        assert_eq!(
            (link.depth, leads_to(&made, link.at)),
            (1, rest[0].at as usize)
        );
    }
}
