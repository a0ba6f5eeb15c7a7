//! The bytes of a volume, sound and damaged.

mod bench;

use bench::{some, Folder};

const NOTE: &str = "read by this tool from the bytes alone; the volume is not checked\n";

fn dump(folder: &Folder, part: &str) -> String {
    let text = folder.tfs(&format!("dump v {part}")).text();
    text.strip_prefix(NOTE).unwrap().to_string()
}

fn with_file(name: &str) -> Folder {
    let folder = Folder::new(name);
    folder.tfs("make v --size 16K --label PUMP").granted();
    folder.write("TIMING", &some(1000));
    folder.tfs("put v TIMING").granted();
    folder
}

#[test]
fn parts_of_a_sound_volume() {
    let folder = with_file("dump_sound");
    let header = "000000  00 00 0e a1 50 55 4d 50 00 00 00 00 00 00 00 00
000010  00 00 00 00 00 00 00 00 00 00 00 00 00 00 00 00
*
magic number: 3745, right\nvolume name: \"PUMP\"\nblocks: 32\n";
    assert_eq!(dump(&folder, "header"), header);
    let slot = "000400  00 00 00 03 54 49 4d 49 4e 47 00 00 00 00 00 00
000410  00 00 00 00\nused\ninode: block 3\nname: \"TIMING\"\n";
    assert_eq!(dump(&folder, "slot 0"), slot);
    assert!(dump(&folder, "slot 24").ends_with("\nfree\n"));
    let map = "reserved: 6: 0-5\nfree: 26: 6-31\nset past the volume's 32 blocks, ignored: 0\n";
    assert!(dump(&folder, "map").ends_with(map));
    let inode = "\nsize: 1000\ncontent 0: block 4\ncontent 1: block 5\n";
    assert!(dump(&folder, "inode 3").ends_with(inode));
}

#[test]
fn parts_of_a_damaged_volume() {
    let folder = with_file("dump_damaged");
    let mut image = folder.read("v");
    image[3] = 0;
    image[4..20].fill(b'x');
    image[515] = 0x81;
    image[516] = 1;
    image[1025] = 1;
    image[1536] = 1;
    image[1536 + 508] = 9;
    folder.write("v", &image);
    assert_eq!(folder.tfs("check v").status, 1);
    let header =
        "magic number: 3584, wrong, 3745 is right\nvolume name: without an end\nblocks: 32\n";
    assert!(dump(&folder, "header").ends_with(header));
    let map = "reserved: 2: 0 7\nfree: 30: 1-6 8-31\nset past the volume's 32 blocks, ignored: 1\n";
    assert!(dump(&folder, "map").ends_with(map));
    let slot = "neither free nor used\ninode: block 65539, out of range\nname: \"TIMING\"\n";
    assert!(dump(&folder, "slot 0").ends_with(slot));
    let inode = dump(&folder, "inode 3");
    assert!(inode.contains("\nsize: 16778216, over 65024\ncontent 0: block 4\n"));
    assert!(inode.ends_with("content 126: block 150994944, out of range\n"));
}

/// What is said of a slot with this inode number and these 16 bytes of a name.
fn said(folder: &Folder, slot: usize, inode: u8, name: &[u8; 16]) -> String {
    let mut image = folder.read("v");
    let bytes = &mut image[1024 + 20 * slot..][..20];
    bytes[..4].copy_from_slice(&[0, 0, 0, inode]);
    bytes[4..].copy_from_slice(name);
    folder.write("v", &image);
    let text = dump(folder, &format!("slot {slot}"));
    let meaning = text.lines().skip(2).map(|line| format!("{line}\n"));
    meaning.collect()
}

#[test]
fn leftovers_of_a_used_slot() {
    let folder = with_file("dump_leftovers_used");
    let cases: [(&[u8; 16], &str); 5] = [
        (b"TIMING\0\0\0\0\0\0\0\0\0\0", "\"TIMING\"\n"),
        (b"abcdefghijklmno\0", "\"abcdefghijklmno\"\n"),
        (
            b"abcdefghijklmn\0|",
            "\"abcdefghijklmn\"\nleftovers: 7c |||\n",
        ),
        (
            b"A\0old\0\0\0\0\0\0\0\0\0\0\0",
            "\"A\"\nleftovers: 6f 6c 64 |old|\n",
        ),
        (
            b"abcdefghijk\0\0\xff\0\x07",
            "\"abcdefghijk\"\nleftovers: 00 ff 00 07 |....|\n",
        ),
    ];
    for (field, rest) in cases {
        let meaning = format!("used\ninode: block 3\nname: {rest}");
        assert_eq!(said(&folder, 0, 3, field), meaning);
    }
}

#[test]
fn leftovers_of_a_free_slot() {
    let folder = with_file("dump_leftovers_free");
    let cases: [(&[u8; 16], &str); 3] = [
        (&[0; 16], ""),
        (
            b"\0IMING\0\0\0\0\0\0\0\0\0\0",
            "leftovers: 49 4d 49 4e 47 |IMING|\n",
        ),
        (
            b"\0ABCDEFGHIJKLM N",
            "leftovers: 41 42 43 44 45 46 47 48 49 4a 4b 4c 4d 20 4e |ABCDEFGHIJKLM N|\n",
        ),
    ];
    for (field, rest) in cases {
        assert_eq!(said(&folder, 7, 0, field), format!("free\n{rest}"));
    }
}

#[test]
fn a_slot_that_is_neither_free_nor_used() {
    let folder = with_file("dump_neither");
    let cases: [(u8, &[u8; 16], &str); 6] = [
        (
            0,
            b"A\0\0\0\0\0\0\0\0\0\0\0\0\0\0\0",
            "0, out of range\nname: \"A\"",
        ),
        (
            0,
            b"A\0old\0\0\0\0\0\0\0\0\0\0\0",
            "0, out of range\nname: \"A\"\nleftovers: 6f 6c 64 |old|",
        ),
        (3, &[0; 16], "3\nname: empty"),
        (
            3,
            b"\0IMING\0\0\0\0\0\0\0\0\0\0",
            "3\nname: empty\nleftovers: 49 4d 49 4e 47 |IMING|",
        ),
        (3, b"abcdefghijklmnop", "3\nname: without an end"),
        (
            32,
            b"A\0\0\0\0\0\0\0\0\0\0\0\0\0\0\0",
            "32, out of range\nname: \"A\"",
        ),
    ];
    for (inode, field, rest) in cases {
        let meaning = format!("neither free nor used\ninode: block {rest}\n");
        assert_eq!(said(&folder, 7, inode, field), meaning);
        assert_eq!(folder.tfs("check v").status, 1);
    }
}

#[test]
fn a_name_that_a_lower_slot_has() {
    let folder = with_file("dump_repeated");
    let twice = "used\ninode: block 9\nname: \"TIMING\", repeats slot 0\nleftovers: 78 |x|\n";
    assert_eq!(said(&folder, 7, 9, b"TIMING\0x\0\0\0\0\0\0\0\0"), twice);
    assert_eq!(said(&folder, 8, 9, b"TIMING\0x\0\0\0\0\0\0\0\0"), twice);
    assert!(dump(&folder, "slot 0").ends_with("\nname: \"TIMING\"\n"));
    folder.refused(
        "check v",
        1,
        "v: refused 4: slot 7 has the name of slot 0 again: TIMING",
    );
}

#[test]
fn parts_that_are_cut_off() {
    let folder = Folder::new("dump_cut");
    folder.write("v", &some(700));
    assert!(dump(&folder, "map").ends_with("\ncut off: the image ends at byte 700\n"));
    folder.refused(
        "dump v slot 0",
        3,
        "v: ends at byte 700, that part begins at 1024",
    );
    folder.refused(
        "dump v inode 4294967295",
        3,
        "v: ends at byte 700, that part begins at 2199023255040",
    );
}

#[test]
fn a_part_must_be_named() {
    let folder = Folder::new("dump_usage");
    for (part, why) in [
        (
            "block",
            "block: no such part; there are header, map, slot N, inode N",
        ),
        ("slot", "slot needs a number"),
        ("slot 25", "there is no slot 25, the last is 24"),
        ("slot x", "x: no number"),
        ("inode", "inode needs a number"),
        ("inode -1", "-1: no number"),
        ("map 0", "map has no number"),
        ("header 0", "header has no number"),
    ] {
        folder.refused(&format!("dump v {part}"), 2, &format!("dump: {why}"));
    }
}
