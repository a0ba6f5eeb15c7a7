//! Each cause of a refusal with the timing file is told where it holds.

use crate::survey::{cause, Asked};
use crate::words;
use proved::{tfs, timing, Refusal};

/// A volume of 64 blocks.
fn empty() -> Vec<u8> {
    let mut image = vec![0; 64 * 512];
    tfs::format(&mut image, b"").unwrap();
    image
}

/// The same with the values of board 7 and maker 9.
fn stored() -> Vec<u8> {
    let mut image = empty();
    timing::store(&mut image, 7, 9, &[5; 28]).unwrap();
    image
}

fn booted(image: &[u8], board: u32, maker: u32) -> String {
    let refusal = timing::boot(image, board, maker).answer.unwrap_err();
    cause(image, refusal, Asked::Boot(board, maker))
}

#[test]
fn an_absent_file_is_told() {
    let told = "there is no timing file (TIMING)";
    assert_eq!(booted(&empty(), 7, 9), told);
    let refusal = timing::open_lid(&mut empty()).unwrap_err();
    assert_eq!(cause(&empty(), refusal, Asked::Lid), told);
}

#[test]
fn the_owner_in_the_file_is_told() {
    let board = "the timing file is of board 7, not 8";
    assert_eq!(booted(&stored(), 8, 8), board);
    let maker = "the timing file is of memory maker 9, not 8";
    assert_eq!(booted(&stored(), 7, 8), maker);
}

#[test]
fn an_open_lid_is_told_from_a_cut_store() {
    let mut opened = stored();
    timing::open_lid(&mut opened).unwrap();
    let lid = "the timing file has board number 0: the lid was opened";
    assert_eq!(booted(&opened, 7, 9), lid);
    let mut cut = empty();
    tfs::create(&mut cut, b"TIMING", 64).unwrap();
    let none = "the timing file has board number 0: all its bytes are 0, no values were stored";
    assert_eq!(booted(&cut, 7, 9), none);
}

#[test]
fn another_size_is_told() {
    let mut image = empty();
    tfs::create(&mut image, b"TIMING", 63).unwrap();
    let told = "the timing file has 63 bytes, not 64";
    assert_eq!(booted(&image, 7, 9), told);
    let stored = timing::store(&mut image, 7, 9, &[5; 28]).unwrap_err();
    assert_eq!(cause(&image, stored, Asked::Store(7)), told);
    let opened = timing::open_lid(&mut image).unwrap_err();
    assert_eq!(cause(&image, opened, Asked::Lid), told);
}

#[test]
fn a_refused_store_is_told() {
    let refused = |image: &[u8], board| {
        let refusal = timing::store(&mut image.to_vec(), board, 9, &[5; 28]).unwrap_err();
        cause(image, refusal, Asked::Store(board))
    };
    assert_eq!(refused(&empty(), 0), "board number 0 cannot be stored");
    let mut full = empty();
    tfs::create(&mut full, b"A", 59 * 512).unwrap();
    let room = "too few free blocks: 2 needed with the inode, 1 free";
    assert_eq!(refused(&full, 7), room);
    let mut slots = empty();
    for name in b'a'..=b'y' {
        tfs::create(&mut slots, &[name], 0).unwrap();
    }
    assert_eq!(refused(&slots, 7), "all 25 slots have a file");
}

#[test]
fn a_cause_that_does_not_hold_is_not_told() {
    for number in [13, 34, 35, 36, 37] {
        let refusal = Refusal { number, place: 0 };
        for asked in [Asked::Lid, Asked::Store(7), Asked::Boot(7, 9)] {
            let told = cause(&stored(), refusal, asked);
            assert_eq!(told, words::refusal(refusal), "{number} {asked:?}");
        }
    }
}
