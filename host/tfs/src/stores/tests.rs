//! Stores cut after every number of them, in memory and in a file.

use super::*;
use generate::cuts::{contents, Standing};
use std::fs;
use std::os::unix::fs::MetadataExt;
use std::path::PathBuf;

const NEW: [u8; 1_300] = [0xA5; 1_300];

/// A volume of 40 blocks with two files and noise in its free blocks.
fn volume() -> Vec<u8> {
    let mut volume = vec![0x5A; 40 * BLOCK_SIZE];
    tfs::format(&mut volume, b"PUMP").unwrap();
    for (name, size) in [(b"A", 700), (b"B", 1_100)] {
        tfs::create(&mut volume, name, size).unwrap();
        tfs::write(&mut volume, name, 0, &[0x11; 1_200]).unwrap();
    }
    volume
}

/// What the commands make: a put, a put in place of a file, a remove, an empty file, a put into a
/// file, two puts, two removes.
fn commands() -> Vec<Vec<Change<'static>>> {
    vec![
        vec![Change::Create(b"C", 1_300), Change::Write(b"C", 0, &NEW)],
        vec![
            Change::Remove(b"A"),
            Change::Create(b"A", 1_300),
            Change::Write(b"A", 0, &NEW),
        ],
        vec![Change::Remove(b"B")],
        vec![Change::Create(b"E", 0), Change::Write(b"E", 0, b"")],
        vec![Change::Write(b"B", 300, &NEW[..700])],
        vec![
            Change::Create(b"C", 600),
            Change::Write(b"C", 0, &NEW[..600]),
            Change::Create(b"D", 1),
            Change::Write(b"D", 0, &NEW[..1]),
        ],
        vec![Change::Remove(b"A"), Change::Remove(b"B")],
    ]
}

const TRAINED: [u16; VALUES] = [0x1122; VALUES];
const AGAIN: [u16; VALUES] = [0x3344; VALUES];

/// What the commands on the timing file make, one after another.
fn timing_commands() -> Vec<Change<'static>> {
    vec![
        Change::StoreTiming(7, 1, &TRAINED),
        Change::StoreTiming(8, 2, &AGAIN),
        Change::OpenLid,
    ]
}

fn all_commands() -> impl Iterator<Item = Vec<Change<'static>>> {
    commands().into_iter().chain([timing_commands()])
}

fn put(image: &mut [u8], number: u32, block: &[u8]) {
    image[BLOCK_SIZE * number as usize..][..BLOCK_SIZE].copy_from_slice(block);
}

/// The image as the stores leave it that come before a cut, and whether there was one.
fn cut_after(old: &[u8], changes: &[Change<'_>], count: usize) -> (Vec<u8>, bool) {
    let (mut image, mut left) = (old.to_vec(), count);
    let stored = program(&mut old.to_vec(), changes, |number, block| {
        left = left
            .checked_sub(1)
            .ok_or(io::Error::other("the power is cut"))?;
        put(&mut image, number, block);
        Ok(())
    });
    match stored {
        Ok(()) => (image, false),
        Err(Trouble::Store(_, made)) => {
            assert_eq!(made, count);
            (image, true)
        }
        Err(trouble) => panic!("{trouble:?}"),
    }
}

/// The volumes before the first change and after each.
fn states(old: &[u8], changes: &[Change<'_>]) -> Vec<Vec<u8>> {
    let mut states = vec![old.to_vec()];
    for change in changes {
        let mut next = states[states.len() - 1].clone();
        change.make(&mut next).unwrap();
        states.push(next);
    }
    states
}

/// Tells whether an image has the names and sizes of a volume, and its map and directory.
fn stands_in(image: &[u8], state: &[u8]) -> bool {
    let (ours, theirs) = (contents(image), contents(state));
    let sizes = ours.iter().map(|(name, content)| (name, content.len()));
    let same = sizes.eq(theirs.iter().map(|(name, content)| (name, content.len())));
    same && image[..3 * BLOCK_SIZE] == state[..3 * BLOCK_SIZE]
}

/// Tells whether each content block of an image is that of the same file in one of some volumes.
fn blocks_are_of(image: &[u8], states: &[Vec<u8>]) -> bool {
    let states: Vec<_> = states.iter().map(|state| contents(state)).collect();
    contents(image).iter().all(|(name, content)| {
        let files = || states.iter().filter_map(|state| state.get(name));
        let block = |(index, block): (usize, &[u8])| {
            files().any(|file| file.chunks(BLOCK_SIZE).nth(index) == Some(block))
        };
        content.chunks(BLOCK_SIZE).enumerate().all(block)
    })
}

/// A cut image is consistent, or has only stray bits; mended, it is one of the volumes on the way,
/// but that of a file that was being written each block is as before or as after.
fn assert_mends(cut: &[u8], states: &[Vec<u8>]) {
    assert!(tfs::check(cut).map_or_else(|refusal| refusal.number == 7, |()| true));
    assert_eq!(Standing::of(cut).missing(), None);
    let mut mended = cut.to_vec();
    assert_eq!(tfs::mend(&mut mended), Ok(()));
    assert_eq!(tfs::check(&mended), Ok(()));
    assert!(contents(&mended) == contents(cut));
    assert!(states.iter().any(|state| stands_in(&mended, state)));
    assert!(blocks_are_of(&mended, states));
}

#[test]
fn every_cut_can_be_mended() {
    let old = volume();
    for changes in commands() {
        let states = states(&old, &changes);
        let mut count = 0;
        loop {
            let (image, was_cut) = cut_after(&old, &changes, count);
            assert_mends(&image, &states);
            if !was_cut {
                assert!(Some(&image) == states.last());
                break;
            }
            count += 1;
        }
        assert!(count >= 2);
    }
}

#[test]
fn a_mend_is_one_store_of_the_map() {
    let sound = volume();
    let mut old = sound.clone();
    old[BLOCK_SIZE + 4] |= 0x01;
    old[BLOCK_SIZE + 2] |= 0xF0;
    let mut numbers = Vec::new();
    let mut image = old.clone();
    let stored = program(&mut old.clone(), &[Change::Mend], |number, block| {
        numbers.push(number);
        put(&mut image, number, block);
        Ok(())
    });
    assert!(stored.is_ok());
    assert_eq!(numbers, [1]);
    let mut mended = old;
    tfs::mend(&mut mended).unwrap();
    assert!(image == mended);
}

/// A boot after a cut and a mend gets the values of one store or none: seven stores are made, the
/// first five by a create and a write.
#[test]
fn a_boot_after_a_cut_gets_no_mixture() {
    let boots = |image: &[u8], board, maker| {
        let booted = timing::boot(image, board, maker);
        let refused = booted.answer.err().map(|refusal| refusal.number);
        (refused, booted.values)
    };
    let none = |number| (Some(number), [0; VALUES]);
    let expected = [
        [none(13), none(13)],
        [none(13), none(13)],
        [none(13), none(13)],
        [none(13), none(13)],
        [none(34), none(34)],
        [(None, TRAINED), none(36)],
        [none(36), (None, AGAIN)],
        [none(34), none(34)],
    ];
    for (count, expected) in expected.into_iter().enumerate() {
        let (mut image, was_cut) = cut_after(&volume(), &timing_commands(), count);
        assert_eq!(was_cut, count < 7);
        tfs::mend(&mut image).unwrap();
        let booted = [boots(&image, 7, 1), boots(&image, 8, 2)];
        assert_eq!(booted, expected, "{count}");
    }
}

#[test]
fn memory_follows_the_stores() {
    let old = volume();
    for changes in all_commands() {
        let mut memory = old.clone();
        let mut image = old.clone();
        let stored = program(&mut memory, &changes, |number, block| {
            put(&mut image, number, block);
            Ok(())
        });
        assert!(stored.is_ok());
        assert!(memory == image);
    }
}

#[test]
fn nothing_is_stored_of_a_refused_change() {
    let mut stores = 0;
    let changes = [Change::Create(b"A", 5)];
    let stored = program(&mut volume(), &changes, |_, _| {
        stores += 1;
        Ok(())
    });
    let refused = matches!(stored, Err(Trouble::Refused(refusal)) if refusal.number == 10);
    assert!(refused && stores == 0);
}

#[test]
fn nothing_is_stored_of_a_refused_timing_file() {
    for (change, number) in [
        (Change::StoreTiming(0, 1, &TRAINED), 34),
        (Change::OpenLid, 13),
    ] {
        let stored = program(&mut volume(), &[change], |_, _| panic!("a store"));
        let refused = matches!(stored, Err(Trouble::Refused(refusal)) if refusal.number == number);
        assert!(refused, "{number}");
    }
}

/// A file that goes when the test ends.
struct Kept(PathBuf);

impl Drop for Kept {
    fn drop(&mut self) {
        let _ = fs::remove_file(&self.0);
    }
}

/// The file is watched between stores: each changes one block of it and no other byte, in the order
/// of the series, and the file stays the same one.
#[test]
fn the_file_holds_each_store_before_the_next() {
    let path = std::env::temp_dir().join(format!("tfs-stores-{}", std::process::id()));
    let kept = Kept(path);
    for changes in all_commands() {
        let mut old = volume();
        old.extend([0x77; 100]);
        fs::write(&kept.0, &old).unwrap();
        let inode = fs::metadata(&kept.0).unwrap().ino();
        let file = fs::OpenOptions::new().write(true).open(&kept.0).unwrap();
        let mut count = 0;
        let stored = program(&mut old.clone(), &changes, |number, block| {
            let (before, _) = cut_after(&old, &changes, count);
            assert!(fs::read(&kept.0).unwrap() == before);
            store_in(&file, number, block)?;
            count += 1;
            let (after, _) = cut_after(&old, &changes, count);
            assert!(fs::read(&kept.0).unwrap() == after);
            Ok(())
        });
        assert!(stored.is_ok());
        assert_eq!(fs::metadata(&kept.0).unwrap().ino(), inode);
    }
}
