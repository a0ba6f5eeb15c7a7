//! Refusals: status 1, one line, and nothing changed.

mod bench;

use bench::{some, Folder};
use generate::tfs::{damage_volume, volume, Shape};
use generate::Random;

#[test]
fn every_fault_of_a_volume_is_named() {
    let folder = Folder::new("faults");
    folder.write("in", b"content");
    folder.write("values", &[b'7', b' '].repeat(28));
    for rule in 1..=7 {
        let mut random = Random::new(rule);
        let sound = volume(&mut random, Shape::Scattered, 60);
        let (image, fault) = damage_volume(&mut random, &sound, rule as u32).unwrap();
        assert_eq!(fault.number as u64, rule);
        folder.write("v", &image);
        let message = told(&folder, "check v");
        let begin = format!("v: refused {rule}: {}", place_words(rule, fault.place));
        assert!(message.starts_with(&begin), "{message}");
        for line in [
            "list v",
            "free v",
            "put v in",
            "put v in --replace",
            "get v in",
            "remove v in",
            "create v in 1",
            "put v in --at 0",
            "put v in values",
            "get v in other --to .",
            "remove v in other",
            "extract v out",
            "mend v",
            "put v in --in-place",
            "remove v in --in-place",
            "mend v --in-place",
            "timing show v",
            "timing store v --board 0 --maker 1 values",
            "timing store v --board 1 --maker 1 values --in-place",
            "timing open-lid v",
            "timing open-lid v --in-place",
            "timing boot v --board 1 --maker 1",
        ] {
            folder.refused(line, 1, &message);
        }
    }
}

/// The message of a command that fails.
fn told(folder: &Folder, line: &str) -> String {
    let message = folder.tfs(line).err;
    let message = message.strip_prefix("tfs: ").unwrap();
    message.strip_suffix('\n').unwrap().to_string()
}

/// How the cause of a fault begins.
fn place_words(rule: u64, place: u32) -> String {
    match rule {
        1 => "the image has ".to_string(),
        2 => "the magic number is ".to_string(),
        3 => "the volume name has no end ".to_string(),
        4 | 5 => format!("slot {place} "),
        _ => format!("block {place} "),
    }
}

#[test]
fn a_name_must_be_allowed() {
    let folder = Folder::new("names");
    folder.tfs("make v --size 64K").granted();
    let long = "a_name_of_16_byt";
    folder.write(long, b"x");
    let message = "v: refused 8: the name is 16 bytes long, at most 15 are allowed";
    folder.refused(&format!("put v {long}"), 1, message);
    folder.refused(&format!("put v {long} --replace"), 1, message);
    folder.refused(&format!("get v {long} out"), 1, message);
    folder.refused(&format!("remove v {long}"), 1, message);
    let empty = "v: refused 8: the name is empty";
    folder.refused(&format!("put v {long} --name="), 1, empty);
    let zero = "v: refused 8: the name has a zero byte in it";
    folder.refused("get v a\\x00b out -x", 1, zero);
    folder.refused(
        &format!("make w --size 64K --label {long}"),
        1,
        &message.replace("v:", "w:"),
    );
    folder
        .tfs(&format!("put v {long} --name {}", &long[..15]))
        .granted();
}

#[test]
fn a_name_stands_or_does_not() {
    let folder = Folder::new("stands");
    folder.tfs("make v --size 64K").granted();
    folder.write("in", &some(10));
    let absent = |name: &str| {
        let message = format!("v: refused 13: no file has the name {name}");
        folder.refused(&format!("get v {name} out"), 1, &message);
        folder.refused(&format!("remove v {name}"), 1, &message);
    };
    absent("in");
    folder.tfs("put v in").granted();
    let stands = "v: refused 10: in stands already, in slot 0";
    folder.refused("put v in", 1, stands);
    ["i", "inn", "im", "IN"].into_iter().for_each(absent);
}

#[test]
fn a_removed_name_is_gone_until_it_is_put_again() {
    let folder = Folder::new("removed");
    folder.tfs("make v --size 64K").granted();
    folder.write("old", &some(700));
    folder.write("new", &some(90)[40..]);
    folder.tfs("put v old --name f").granted();
    folder.tfs("remove v f").granted();
    folder.tfs("put v old --name g").granted();
    let absent = "v: refused 13: no file has the name f";
    folder.refused("get v f out", 1, absent);
    folder.tfs("put v new --name f").granted();
    assert_eq!(folder.tfs("get v f -").granted(), &some(90)[40..]);
    assert_eq!(
        folder.tfs("list v").text(),
        " 0    3   700 g\n 1    6    50 f\n"
    );
}

#[test]
fn a_file_may_be_too_large() {
    let folder = Folder::new("too_large");
    folder.tfs("make v --size 2M").granted();
    folder.write("in", &some(65_025));
    folder.write("old", &some(5));
    folder.tfs("put v old").granted();
    let message = "v: refused 9: the size is over 65024 bytes, the most that a file may have";
    folder.refused("put v in", 1, message);
    folder.refused("put v in --name old --replace", 1, message);
    folder.refused("put v /dev/zero", 1, message);
    assert_eq!(folder.tfs("get v old -").granted(), some(5));
}

#[test]
fn a_volume_may_be_full() {
    let folder = Folder::new("full");
    folder.tfs("make v --size 2560").granted();
    folder.write("two", &some(513));
    folder.write("one", &some(512));
    let message = |free: u32| {
        format!("v: refused 12: too few free blocks: 3 needed with the inode, {free} free")
    };
    folder.refused("put v two", 1, &message(2));
    folder.tfs("put v one").granted();
    assert_eq!(folder.tfs("free v").text(), "0\n");
    folder.refused("put v two", 1, &message(0));
    // What the file to be replaced had is free again.
    folder.refused("put v two --name one --replace", 1, &message(2));
    assert_eq!(folder.tfs("get v one -").granted(), some(512));
}

#[test]
fn a_directory_may_be_full() {
    let folder = Folder::new("directory_full");
    folder.tfs("make v --size 64K").granted();
    folder.write("f", b"");
    for number in 0..25 {
        folder.tfs(&format!("put v f --name {number}")).granted();
    }
    let full = "v: refused 11: all 25 slots have a file";
    folder.refused("put v f", 1, full);
    let stands = "v: refused 10: 7 stands already, in slot 7";
    folder.refused("put v f --name 7", 1, stands);
    folder.tfs("put v f --name 7 --replace").granted();
}

#[test]
fn a_volume_may_be_too_small_to_make() {
    let folder = Folder::new("too_small");
    folder.refused(
        "make v --size 1535",
        1,
        "v: refused 1: the image has 1535 bytes, under 1536",
    );
    folder.refused(
        "make v --size 0",
        1,
        "v: refused 1: the image has 0 bytes, under 1536",
    );
}
