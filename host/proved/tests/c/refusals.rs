//! A refusal has the number of its name in the header when the library is given what the name says.

use crate::numbers::{constants, values};
use proved::c::{romfs, tfs, timing, trace};
use std::collections::BTreeMap;

/// Fails unless a header's enum has these names with these numbers, and no others.
fn named<const N: usize>(header: &str, name: &str, told: [(&str, u32); N]) {
    let told = told.map(|(name, number)| (name.to_string(), number));
    assert_eq!(constants(header, name), BTreeMap::from(told));
}

/// A volume of 8 KiB with the file A of two blocks: its inode is block 3.
fn volume() -> Vec<u8> {
    let mut image = vec![0; 8192];
    tfs::format(&mut image, b"PUMP");
    tfs::create(&mut image, b"A", 1000);
    image
}

/// What the check says of that volume with other bytes somewhere.
fn check_with(at: usize, bytes: &[u8]) -> u32 {
    let mut image = volume();
    image[at..at + bytes.len()].copy_from_slice(bytes);
    tfs::check(&image).refusal
}

/// What a create says on that volume.
fn create(name: &[u8], size: u32) -> u32 {
    tfs::create(&mut volume(), name, size).refusal
}

/// What a create says on a volume where all slots are used.
fn create_on_full() -> u32 {
    let mut image = vec![0; 32768];
    tfs::format(&mut image, b"");
    (b'A'..b'A' + 25).for_each(|name| assert_eq!(tfs::create(&mut image, &[name], 0).refusal, 0));
    tfs::create(&mut image, b"NEW", 0).refusal
}

#[test]
fn of_tfs() {
    let image = volume();
    let told = [
        ("TFS_OK", check_with(0, &[])),
        ("TFS_IMAGE_TOO_SHORT", tfs::check(&image[..1535]).refusal),
        ("TFS_BAD_MAGIC", check_with(0, &[1])),
        ("TFS_BAD_LABEL", check_with(4, &[b'x'; 16])),
        ("TFS_BAD_SLOT", check_with(1024 + 4, &[0])),
        ("TFS_BAD_INODE", check_with(1536, &[1])),
        ("TFS_BLOCK_TWICE", check_with(1536 + 11, &[4])),
        ("TFS_MAP_WRONG", check_with(512 + 3, &[0x7F])),
        ("TFS_NAME_NOT_ALLOWED", create(b"", 1)),
        ("TFS_SIZE_TOO_LARGE", create(b"B", 65025)),
        ("TFS_NAME_EXISTS", create(b"A", 1)),
        ("TFS_NO_FREE_SLOT", create_on_full()),
        ("TFS_NO_ROOM", create(b"B", 65024)),
        (
            "TFS_NO_SUCH_NAME",
            tfs::read(&image, b"B", 0, &mut []).refusal,
        ),
        ("TFS_NO_SUCH_SLOT", tfs::list(&image, 25).refusal),
        (
            "TFS_OFFSET_PAST_END",
            tfs::read(&image, b"A", 1001, &mut []).refusal,
        ),
        (
            "TFS_NO_SUCH_STORE",
            tfs::remove_store(&image, b"A", 0, &mut [0; 512]).refusal,
        ),
    ];
    named("tfs.h", "tfs_refusal", told);
}

#[test]
fn of_the_timing_file() {
    let (mut image, mut other) = (volume(), volume());
    assert_eq!(timing::store(&mut image, 1, 2, &[7; 28]).refusal, 0);
    assert_eq!(tfs::create(&mut other, b"TIMING", 65).refusal, 0);
    let told = [
        (
            "TIMING_NO_BOARD",
            timing::store(&mut image, 0, 2, &[7; 28]).refusal,
        ),
        ("TIMING_WRONG_SIZE", timing::boot(&other, 1, 2).refusal),
        ("TIMING_OTHER_BOARD", timing::boot(&image, 3, 2).refusal),
        ("TIMING_OTHER_MAKER", timing::boot(&image, 1, 3).refusal),
    ];
    named("timing.h", "timing_refusal", told);
}

#[test]
fn of_a_record() {
    let [number] = values("record", ["TFS_RECORD_NOT_WRITTEN"]);
    let entry = trace::Entry {
        kind: 5,
        ..Default::default()
    };
    assert_eq!(
        trace::write(&mut [], entry, b"", b"").refusal,
        number.into()
    );
}

/// Sets the checksum of a romfs header, or of the volume, right.
fn seal(part: &mut [u8]) {
    part[12..16].fill(0);
    let words = part
        .chunks_exact(4)
        .map(|word| u32::from_be_bytes(word.try_into().unwrap()));
    let sum = words.fold(0, u32::wrapping_add).wrapping_neg();
    part[12..16].copy_from_slice(&sum.to_be_bytes());
}

/// An image of headers: first word and spec.info of each, which is named a.
fn rom(headers: &[[u32; 2]]) -> Vec<u8> {
    let mut image = b"-rom1fs-".to_vec();
    image.resize(32 + 32 * headers.len(), 0);
    let size = image.len() as u32;
    image[8..12].copy_from_slice(&size.to_be_bytes());
    for (header, words) in image[32..].chunks_exact_mut(32).zip(headers) {
        header[..4].copy_from_slice(&words[0].to_be_bytes());
        header[4..8].copy_from_slice(&words[1].to_be_bytes());
        header[16] = b'a';
        seal(header);
    }
    sealed(image)
}

/// The image with the checksum of its volume set right.
fn sealed(mut image: Vec<u8>) -> Vec<u8> {
    let summed = image.len().min(512);
    seal(&mut image[..summed]);
    image
}

/// What the check says of an image of one file with another byte somewhere.
fn rom_with(at: usize, byte: u8, end: fn(Vec<u8>) -> Vec<u8>) -> u32 {
    let mut image = rom(&[[2, 0]]);
    image[at] = byte;
    romfs::check(&end(image)).refusal
}

/// An image of a volume name that fills all.
fn endless() -> Vec<u8> {
    let mut image = rom(&[]);
    image[16..].fill(b'V');
    sealed(image)
}

/// Directories in each other, down to a list at depth 9.
fn deep() -> Vec<u8> {
    let directory = |n: u32| [1, 32 * (n + 2)];
    let mut headers: Vec<[u32; 2]> = (0..8).map(directory).collect();
    headers.push([2, 0]);
    rom(&headers)
}

#[test]
fn of_romfs() {
    let image = rom(&[[2, 0]]);
    let checked = |image: &[u8]| romfs::check(image).refusal;
    let told = [
        ("ROMFS_OK", checked(&image)),
        ("ROMFS_TOO_SHORT", checked(&image[..31])),
        ("ROMFS_BAD_MAGIC", rom_with(0, b'+', sealed)),
        ("ROMFS_BAD_FULL_SIZE", rom_with(11, 65, sealed)),
        ("ROMFS_BAD_VOLUME_SUM", rom_with(16, b'V', |image| image)),
        ("ROMFS_BAD_VOLUME_NAME", checked(&endless())),
        ("ROMFS_BAD_HEADER", rom_with(48, b'b', sealed)),
        ("ROMFS_BAD_NESTING", checked(&rom(&[[0x1000 | 2, 0]]))),
        ("ROMFS_TOO_DEEP", checked(&deep())),
        ("ROMFS_BAD_LINK", checked(&rom(&[[0, 16]]))),
        ("ROMFS_NO_SUCH_NAME", romfs::find(&image, 0, b"b").refusal),
        ("ROMFS_NO_SUCH_HEADER", romfs::entry(&image, 48).refusal),
    ];
    named("romfs.h", "romfs_refusal", told);
}
