//! The mend of a map, with numbers worked out by hand.

use reference::tfs::{check, create, format, mend};
use reference::Refusal;

/// A volume of 44 blocks: "A" has inode 3 and content 4 and 5, "B" has inode 6 and content 7 to 35.
fn volume() -> Vec<u8> {
    let mut image = vec![0x5A; 44 * 512 + 100];
    format(&mut image, b"PUMP").unwrap();
    create(&mut image, b"A", 1_000).unwrap();
    create(&mut image, b"B", 29 * 512).unwrap();
    // Padding: block 44 and all from 64 on.
    image[512 + 6] |= 0x10;
    image[512 + 8..1024].fill(0xFF);
    assert_eq!(image[512..520], [0xFF, 0xFF, 0xFF, 0xFF, 0, 0, 0x10, 0x0F]);
    image
}

/// Turns the bits of blocks.
fn flip(image: &mut [u8], blocks: &[usize]) {
    for block in blocks {
        image[512 + block / 32 * 4 + 3 - block % 32 / 8] ^= 1 << (block % 8);
    }
}

/// Asserts that a mend is refused and changes nothing.
fn refuses(image: &[u8], number: u32, place: u32) {
    let mut mended = image.to_vec();
    assert_eq!(mend(&mut mended), Err(Refusal::at(number, place)));
    assert!(mended == image, "{number} {place}");
}

/// Asserts that a mend gives one image out of another, and then changes nothing more.
fn mends(image: &[u8], expected: &[u8]) {
    let mut mended = image.to_vec();
    for _ in 0..2 {
        assert_eq!(mend(&mut mended), Ok(()));
        assert!(mended == expected);
        assert_eq!(check(&mended), Ok(()));
    }
}

#[test]
fn a_consistent_volume_stays() {
    mends(&volume(), &volume());
    let mut least = vec![0xFF; 1_536];
    format(&mut least, b"").unwrap();
    mends(&least.clone(), &least);
}

#[test]
fn stray_bits_are_cleared() {
    let sound = volume();
    let stray: [&[usize]; 5] = [
        &[36],
        &[43],
        &[36, 37, 43],
        &[40, 41],
        &[36, 37, 38, 39, 40, 41, 42, 43],
    ];
    for blocks in stray {
        let mut image = sound.clone();
        flip(&mut image, blocks);
        let first = blocks[0] as u32;
        assert_eq!(check(&image), Err(Refusal::at(7, first)));
        mends(&image, &sound);
    }
    let mut image = sound.clone();
    flip(&mut image, &[36, 43]);
    assert_eq!(image[516..520], [0, 0, 0x18, 0x1F]);
    mend(&mut image).unwrap();
    assert_eq!(image[516..520], [0, 0, 0x10, 0x0F]);
}

#[test]
fn all_but_the_first_three_may_be_stray() {
    let mut image = vec![0x5A; 4_096 * 512 + 9];
    format(&mut image, b"PUMP").unwrap();
    let sound = image.clone();
    image[512..1024].fill(0xFF);
    mends(&image, &sound);
}

#[test]
fn a_missing_bit_is_refused_at_its_own_place() {
    for missing in [0, 1, 2, 3, 5, 6, 7, 31, 32, 35] {
        let mut image = volume();
        flip(&mut image, &[missing]);
        refuses(&image, 7, missing as u32);
        flip(&mut image, &[43, 36]);
        refuses(&image, 7, missing as u32);
    }
    let mut image = volume();
    flip(&mut image, &[5, 35, 31]);
    refuses(&image, 7, 5);
}

/// Here blocks before the missing one are stray: the check gives their place, the mend does not.
#[test]
fn stray_bits_before_a_missing_one_are_passed_over() {
    let mut image = vec![0; 20 * 512];
    format(&mut image, b"PUMP").unwrap();
    image[1024..1030].copy_from_slice(b"\0\0\0\x0AA\0");
    image[10 * 512..10 * 512 + 8].copy_from_slice(&[0, 0, 0, 1, 0, 0, 0, 15]);
    flip(&mut image, &[10, 15]);
    assert_eq!(check(&image), Ok(()));
    flip(&mut image, &[4, 15, 12, 17]);
    assert_eq!(check(&image), Err(Refusal::at(7, 4)));
    refuses(&image, 7, 15);
    flip(&mut image, &[10]);
    refuses(&image, 7, 10);
    flip(&mut image, &[1]);
    refuses(&image, 7, 1);
}

#[test]
fn other_faults_go_before_the_map() {
    let mut image = volume();
    flip(&mut image, &[36, 40]);
    let changes: [(usize, u8, u32, u32); 5] = [
        (3, 0, 2, 0),
        (1024 + 3, 2, 4, 0),
        (3 * 512, 1, 5, 0),
        (6 * 512 + 7, 4, 6, 4),
        (6 * 512 + 7, 6, 6, 6),
    ];
    for (at, byte, number, place) in changes {
        let mut damaged = image.clone();
        damaged[at] = byte;
        refuses(&damaged, number, place);
        flip(&mut damaged, &[5]);
        refuses(&damaged, number, place);
    }
    let mut endless = image.clone();
    endless[4..20].fill(b'P');
    refuses(&endless, 3, 0);
    refuses(&image[..1_535], 1, 0);
    refuses(&[], 1, 0);
}

/// A content block that its inode no longer claims is stray, as after a remove cut in the middle.
#[test]
fn what_a_file_no_longer_claims_is_stray() {
    let mut image = volume();
    image[1044..1064].fill(0);
    let mut expected = image.clone();
    flip(&mut expected, &(6..=35).collect::<Vec<_>>());
    assert_eq!(check(&image), Err(Refusal::at(7, 6)));
    mends(&image, &expected);
}
