//! Each cause of a refusal by a volume is told where it holds.

use super::{cause, Asked};
use crate::words;
use generate::tfs::{any_volume, damage_volume, volume_with_files};
use generate::Random;
use proved::{tfs, Refusal};

/// A volume of 128 blocks: TIMING has 1,000 bytes and its inode in block 3, BOOT has 600 and 6.
fn sample() -> Vec<u8> {
    let mut image = vec![0; 128 * 512];
    tfs::format(&mut image, b"PUMP").unwrap();
    tfs::create(&mut image, b"TIMING", 1000).unwrap();
    tfs::create(&mut image, b"BOOT", 600).unwrap();
    image
}

/// The sample with bytes put at an offset.
fn with(at: usize, bytes: &[u8]) -> Vec<u8> {
    let mut image = sample();
    image[at..at + bytes.len()].copy_from_slice(bytes);
    image
}

/// The cause of the check's refusal.
fn checked(image: &[u8]) -> String {
    cause(image, tfs::check(image).unwrap_err(), Asked::Check)
}

const SLOT_1: usize = 1024 + 20;
const INODE_0: usize = 3 * 512;

#[test]
fn a_header_is_told() {
    assert_eq!(checked(&[0; 100]), "the image has 100 bytes, under 1536");
    assert_eq!(
        checked(&with(0, &[0, 0, 0, 9])),
        "the magic number is 9, not 3745"
    );
    assert_eq!(
        checked(&with(4, &[b'x'; 16])),
        "the volume name has no end (no zero in its 16 bytes)"
    );
}

#[test]
fn a_slot_is_told() {
    let causes = [
        (SLOT_1, &[0, 0, 0, 0][..], "a name and no inode"),
        (
            SLOT_1,
            &[0, 1, 0x11, 0x70],
            "inode number 70000, outside of the volume's 128 blocks",
        ),
        (
            SLOT_1,
            &[0, 0, 0, 1],
            "inode number 1, the block of the volume's map",
        ),
        (SLOT_1 + 4, &[0], "no name"),
        (
            SLOT_1 + 4,
            &[b'x'; 16],
            "a name without an end (no zero in its 16 bytes)",
        ),
        (SLOT_1 + 4, b"TIMING", "the name of slot 0 again: TIMING"),
        (
            SLOT_1,
            b"\0\0\0\x80\0",
            "inode number 128, outside of the volume's 128 blocks, and no name",
        ),
        (
            SLOT_1,
            b"\0\0\0\0TIMING\0",
            "no inode, and the name of slot 0 again: TIMING",
        ),
    ];
    for (at, bytes, expected) in causes {
        assert_eq!(checked(&with(at, bytes)), format!("slot 1 has {expected}"));
    }
}

#[test]
fn an_inode_is_told() {
    let causes = [
        (INODE_0, &[0, 0, 0xfe, 1][..], "size 65025, over 65024"),
        (
            INODE_0 + 8,
            &[0, 1, 0x11, 0x70],
            "content 1 in block 70000, outside of the volume's 128 blocks",
        ),
        (
            INODE_0 + 4,
            &[0, 0, 0, 2],
            "content 0 in block 2, the block of the volume's directory",
        ),
        (INODE_0, &[0, 0, 4, 1], "no block for content 2"),
        (
            INODE_0 + 4 + 4 * 126,
            &[0, 0, 0, 9],
            "block number 126, behind its 2 content blocks, not 0 but 9",
        ),
        (
            INODE_0 + 4,
            &[1; 12],
            "content 0 in block 16843009, outside of the volume's 128 blocks, \
             and 2 more wrong block numbers",
        ),
    ];
    for (at, bytes, expected) in causes {
        let told = checked(&with(at, bytes));
        assert_eq!(told, format!("slot 0 (TIMING) has {expected}"));
    }
}

#[test]
fn the_claimants_of_a_block_are_told() {
    assert_eq!(
        checked(&with(SLOT_1 + 3, &[3])),
        "block 3 is claimed twice: by slot 0 (TIMING) as inode, by slot 1 (BOOT) as inode"
    );
    assert_eq!(
        checked(&with(INODE_0 + 4, &[0, 0, 0, 8, 0, 0, 0, 8])),
        "block 8 is claimed 3 times: by slot 0 (TIMING) as content 0 and content 1, \
         by slot 1 (BOOT) as content 1"
    );
    let mut image = with(INODE_0, &[0, 0, 8, 0]);
    (0..4).for_each(|index| image[INODE_0 + 7 + 4 * index] = 4);
    assert_eq!(
        checked(&image),
        "block 4 is claimed 4 times: by slot 0 (TIMING) as content 0 and content 1 \
         and 2 times more"
    );
}

#[test]
fn a_bit_of_the_map_is_told() {
    let causes = [
        (
            &[0, 0, 3, 0xff],
            "block 9 is marked used and no file has it",
        ),
        (
            &[0, 0, 1, 0xef],
            "block 4 belongs to TIMING and is marked free",
        ),
        (
            &[0, 0, 1, 0xfd],
            "block 1 holds the volume's map and is marked free",
        ),
    ];
    for (bytes, expected) in causes {
        assert_eq!(checked(&with(512, bytes)), expected);
    }
}

#[test]
fn a_bad_name_is_told() {
    let mut image = sample();
    let mut told = |name: &[u8]| {
        let refusal = tfs::create(&mut image, name, 5).unwrap_err();
        let one = cause(&image, refusal, Asked::Create(name, 5));
        assert_eq!(one, cause(&image, refusal, Asked::Name(name)));
        assert_eq!(one, cause(&image, refusal, Asked::At(name, 0)));
        one
    };
    assert_eq!(told(b""), "the name is empty");
    assert_eq!(
        told(b"sixteen bytes of"),
        "the name is 16 bytes long, at most 15 are allowed"
    );
    assert_eq!(told(b"a\0b"), "the name has a zero byte in it");
    let label = [b'x'; 17];
    let refusal = tfs::format(&mut sample(), &label).unwrap_err();
    assert_eq!(
        cause(&sample(), refusal, Asked::Label(&label)),
        "the name is 17 bytes long, at most 15 are allowed"
    );
}

#[test]
fn a_refused_create_is_told() {
    let mut image = sample();
    let mut told = |name: &[u8], size| {
        let refusal = tfs::create(&mut image, name, size).unwrap_err();
        cause(&image, refusal, Asked::Create(name, size))
    };
    assert_eq!(
        told(b"NEW", 65_025),
        "the size is over 65024 bytes, the most that a file may have"
    );
    assert_eq!(told(b"BOOT", 1), "BOOT stands already, in slot 1");
    assert_eq!(
        told(b"NEW", 65_024),
        "too few free blocks: 128 needed with the inode, 119 free"
    );
    let mut random = Random::new(61);
    let mut full = volume_with_files(&mut random, 40, &[0; 25]).image;
    let refusal = tfs::create(&mut full, b"NEW", 0).unwrap_err();
    assert_eq!(
        cause(&full, refusal, Asked::Create(b"NEW", 0)),
        "all 25 slots have a file"
    );
}

#[test]
fn a_missing_file_slot_or_byte_is_told() {
    let mut image = sample();
    let missing = tfs::remove(&mut image, b"timing").unwrap_err();
    let told = "no file has the name timing";
    assert_eq!(cause(&image, missing, Asked::Name(b"timing")), told);
    assert_eq!(cause(&image, missing, Asked::At(b"timing", 0)), told);
    let slot = tfs::list(&image, 25).unwrap_err();
    assert_eq!(
        cause(&image, slot, Asked::Slot(25)),
        "there is no slot 25, the last is 24"
    );
    let behind = tfs::read(&image, b"TIMING", 1001, &mut []).unwrap_err();
    assert_eq!(
        cause(&image, behind, Asked::At(b"TIMING", 1001)),
        "offset 1001 is behind the end of TIMING, which has 1000 bytes"
    );
}

#[test]
fn a_cause_that_does_not_hold_is_not_told() {
    let name = b"TIMING";
    let asked = [
        Asked::Check,
        Asked::Label(b""),
        // So much that no free block is left.
        Asked::Create(b"NEW", 118 * 512),
        Asked::Name(name),
        Asked::At(name, 1000),
        Asked::Slot(24),
    ];
    for number in (1..=15).chain(32..=37) {
        let refusal = Refusal { number, place: 24 };
        for asked in asked {
            let told = cause(&sample(), refusal, asked);
            assert_eq!(told, words::refusal(refusal), "{number} {asked:?}");
        }
    }
}

#[test]
fn a_generated_fault_is_told_with_its_place() {
    let mut random = Random::new(62);
    let mut told = 0;
    for round in 0..7000 {
        let made = any_volume(&mut random, 60);
        let rule = 1 + round % 7;
        let Some((image, _)) = damage_volume(&mut random, &made, rule) else {
            continue;
        };
        let refusal = tfs::check(&image).unwrap_err();
        let exact = cause(&image, refusal, Asked::Check);
        assert_ne!(exact, words::refusal(refusal));
        let kind = if rule < 6 { "slot" } else { "block" };
        let place = format!("{kind} {} ", refusal.place);
        assert!(rule < 4 || exact.starts_with(&place), "{exact}");
        told += 1;
    }
    assert!(told > 6000, "{told}");
}
