//! Inodes with one byte of a number changed, checked by both programs.

use compare::sides::{proved, reference};
use compare::Pair;
use generate::tfs::volume_with_files;
use generate::Random;
use reference::request::{Arguments, Request};
use reference::tfs;

const BLOCKS: usize = 300;
const SIZES: [u32; 2] = [65_024, 30_000];

/// A volume of files whose blocks stand one after another.
fn solid() -> Vec<u8> {
    let mut image = vec![0; BLOCKS * 512];
    tfs::format(&mut image, b"SOLID").expect("format");
    for (name, size) in [b"A", b"B"].into_iter().zip(SIZES) {
        tfs::create(&mut image, name, size).expect("create");
    }
    image
}

/// The place of the inode of the first used slot.
fn inode(image: &[u8]) -> usize {
    let slots = image[1024..].chunks(20).map(|slot| &slot[..4]);
    let numbers = slots.map(|word| u32::from_be_bytes(word.try_into().expect("a word")));
    let number = numbers.into_iter().find(|number| *number != 0);
    512 * number.expect("a file") as usize
}

/// Both answer alike whatever a byte of the inode is changed to; how many changes were refused.
fn refused(random: &mut Random, image: &[u8]) -> usize {
    let mut refused = 0;
    for at in inode(image)..inode(image) + 512 {
        let old = image[at];
        for byte in [0, 1, 2, 3, 8, 255, old ^ 1, old.wrapping_add(1)] {
            let mut changed = image.to_vec();
            changed[at] = byte;
            let mut pair = Pair::new(random, [proved, reference], &changed);
            let answer = pair.request(random, Request::TfsCheck, &Arguments::default());
            let answer = answer.unwrap_or_else(|difference| panic!("byte {at}: {difference}"));
            refused += usize::from(answer.words[0] != 0);
        }
    }
    refused
}

#[test]
fn of_files_in_blocks_one_after_another_and_anywhere() {
    let mut random = Random::new(9);
    let anywhere = volume_with_files(&mut random, BLOCKS, &SIZES).image;
    for image in [solid(), anywhere] {
        assert!(refused(&mut random, &image) > 3_000);
    }
}
