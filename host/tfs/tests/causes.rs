//! A message has the one cause that holds.

mod bench;

use bench::json::with_volume;
use bench::Folder;
use std::fs;

/// A volume of 128 blocks: A has 1,000 bytes and its inode in block 3, B has 8 and 6.
fn with_files(name: &str) -> Folder {
    let folder = Folder::new(name);
    folder.tfs("make v --size 64K").granted();
    folder.write("A", &[1; 1000]);
    folder.write("B", &[2; 8]);
    folder.tfs("put v A").granted();
    folder.tfs("put v B").granted();
    folder
}

/// Bytes of a volume, where they are put, and the cause that they are.
const FAULTS: [(usize, &[u8], &str); 13] = [
    (0, &[0, 0, 1, 0], "2: the magic number is 256, not 3745"),
    (
        4,
        &[b'x'; 16],
        "3: the volume name has no end (no zero in its 16 bytes)",
    ),
    (1044, &[0, 0, 0, 0], "4: slot 1 has a name and no inode"),
    (1048, b"A\0", "4: slot 1 has the name of slot 0 again: A"),
    (
        1044,
        &[0, 0, 0, 128],
        "4: slot 1 has inode number 128, outside of the volume's 128 blocks",
    ),
    (
        1536,
        &[0, 1, 0, 0],
        "5: slot 0 (A) has size 65536, over 65024",
    ),
    (
        1540,
        &[0, 0, 0, 2],
        "5: slot 0 (A) has content 0 in block 2, the block of the volume's directory",
    ),
    (
        1544,
        &[0, 0, 0, 0],
        "5: slot 0 (A) has no block for content 1",
    ),
    (
        1548,
        &[0, 0, 0, 9],
        "5: slot 0 (A) has block number 2, behind its 2 content blocks, not 0 but 9",
    ),
    (
        1544,
        &[0, 0, 0, 7],
        "6: block 7 is claimed twice: by slot 0 (A) as content 1, by slot 1 (B) as content 0",
    ),
    (
        512,
        &[0, 0, 1, 0xff],
        "7: block 8 is marked used and no file has it (tfs mend helps)",
    ),
    (
        512,
        &[0, 0, 0, 0xef],
        "7: block 4 belongs to A and is marked free",
    ),
    (
        512,
        &[0, 0, 0, 0xfb],
        "7: block 2 holds the volume's directory and is marked free",
    ),
];

#[test]
fn a_fault_is_told_by_every_command() {
    let folder = with_files("causes_faults");
    let sound = folder.read("v");
    for (at, bytes, cause) in FAULTS {
        let mut image = sound.clone();
        image[at..at + bytes.len()].copy_from_slice(bytes);
        folder.write("v", &image);
        let message = format!("v: refused {cause}");
        for line in ["check v", "list v", "get v A out", "put v B -r"] {
            folder.refused(line, 1, &message);
        }
    }
}

/// What the image is at the time of the refusal: here without the file that is replaced.
#[test]
fn what_is_asked_is_told() {
    let folder = with_files("causes_asked");
    folder.write("large", &[0; 64_000]);
    let room = |free: u32| {
        format!("v: refused 12: too few free blocks: 126 needed with the inode, {free} free")
    };
    folder.refused("put v large", 1, &room(120));
    folder.refused("put v large -r -n A", 1, &room(123));
    folder.refused(
        "put v A -n B",
        1,
        "v: refused 10: B stands already, in slot 1",
    );
    folder.refused("remove v C", 1, "v: refused 13: no file has the name C");
    let label = "w: refused 8: the name is 16 bytes long, at most 15 are allowed";
    let long = "x".repeat(16);
    folder.refused(&format!("make w -s 64k -l {long}"), 1, label);
}

/// A file of which no more is read than is needed to refuse it.
#[test]
fn the_size_of_a_longer_file_is_not_guessed() {
    let folder = with_files("causes_large");
    folder.write("large", &[0; 100_000]);
    let message = "v: refused 9: the size is over 65024 bytes, the most that a file may have";
    folder.refused("put v large", 1, message);
    folder.refused("put v /dev/zero", 1, message);
}

#[test]
fn no_values_are_told_from_an_open_lid() {
    let folder = with_files("causes_timing");
    folder.write("zeros", &[0; 64]);
    folder.tfs("put v zeros -n TIMING").granted();
    let none = "all its bytes are 0, no values were stored";
    let boot = "timing boot v --board 1 --maker 1";
    let message = format!("v: refused 34: the timing file has board number 0: {none}");
    folder.refused(boot, 1, &message);
    let shown = folder.tfs("timing show v").text();
    assert!(shown.starts_with(&format!("board: 0 ({none})\n")));
}

#[test]
fn what_is_no_plain_file_is_told() {
    let folder = with_volume("causes_kinds");
    folder.shell("mkfifo pipe").granted();
    fs::create_dir(folder.path("dir")).unwrap();
    for (path, kind) in [("/dev/null", "a character device"), ("pipe", "a pipe")] {
        let message = format!("{path}: is {kind}, which cannot be changed");
        let ran = folder.tfs(&format!("remove {path} A"));
        assert_eq!((ran.status, ran.err), (3, format!("tfs: {message}\n")));
    }
    let ran = folder.tfs("make dir -s 64k -f");
    let message = "tfs: dir: is a folder, which cannot be replaced\n";
    assert_eq!((ran.status, ran.err.as_str()), (3, message));
}

/// A name of any length in an image is no message of any length.
#[test]
fn a_long_name_is_cut() {
    let folder = Folder::new("causes_long");
    let name = [b'n'; 5000];
    folder.write("i", &bench::rom::image(&[bench::rom::file(&name, b"x")]));
    let path = "n".repeat(5000);
    let ran = folder.run(&["rom", "cat", "i", &format!("{path}/x")]);
    let cut = format!("{}... (5000 bytes)", "n".repeat(64));
    let message = format!("tfs: i: refused 31: file at 32 ({cut}) is no directory\n");
    assert_eq!((ran.status, ran.err), (1, message));
}
