//! The numbers and the mistakes that the rules name, for TFS.

use std::collections::HashSet;

use reference::tfs::{
    blocks_met, check, create, format, free_bytes, list, read, remove, write, Listing, Transferred,
};
use reference::Refusal;

fn plain<T>(number: u32) -> Result<T, Refusal> {
    Err(Refusal::plain(number))
}

/// The answer of a read or a write of so many bytes in so many blocks.
fn moved(count: u32, blocks: u32) -> Result<Transferred, Refusal> {
    Ok(Transferred { count, blocks })
}

fn formatted(length: usize) -> Vec<u8> {
    let mut image = vec![0x5A; length];
    format(&mut image, b"PUMP").unwrap();
    image
}

fn blocks(count: usize) -> Vec<u8> {
    formatted(512 * count)
}

fn pump() -> Vec<u8> {
    let mut image = formatted(65_536);
    assert_eq!(create(&mut image, b"TIMING", 1_000), Ok(3));
    image
}

/// What list gives of the file of `pump`.
const TIMING: Listing = Listing::Used {
    name: b"TIMING",
    inode: 3,
    size: 1_000,
};

/// The 20 bytes of a slot.
fn slot(image: &mut [u8], index: usize) -> &mut [u8] {
    &mut image[1024 + 20 * index..][..20]
}

#[test]
fn format_of_65536_bytes() {
    let image = formatted(65_536);
    assert_eq!(image[..8], [0, 0, 0x0E, 0xA1, 0x50, 0x55, 0x4D, 0x50]);
    assert!(image[8..512].iter().all(|&byte| byte == 0));
    assert_eq!(image[512..516], [0, 0, 0, 7]);
    assert!(image[516..1536].iter().all(|&byte| byte == 0));
    assert!(image[1536..].iter().all(|&byte| byte == 0x5A));
    assert_eq!(free_bytes(&image), Ok(64_000));
}

#[test]
fn create_of_timing() {
    let image = pump();
    assert_eq!(image[512..516], [0, 0, 0, 0x3F]);
    assert!(image[516..1024].iter().all(|&byte| byte == 0));
    assert_eq!(
        image[1024..1034],
        [0, 0, 0, 3, 0x54, 0x49, 0x4D, 0x49, 0x4E, 0x47]
    );
    assert!(image[1034..1536].iter().all(|&byte| byte == 0));
    assert_eq!(image[1536..1548], [0, 0, 3, 0xE8, 0, 0, 0, 4, 0, 0, 0, 5]);
    assert!(image[1548..3072].iter().all(|&byte| byte == 0));
    assert!(image[3072..].iter().all(|&byte| byte == 0x5A));
    assert_eq!(free_bytes(&image), Ok(62_464));
    assert_eq!(list(&image, 0), Ok(TIMING));
    assert_eq!(list(&image, 1), Ok(Listing::Free));
}

#[test]
fn counts_at_the_end_of_a_file() {
    let mut image = pump();
    let mut buffer = [7; 200];
    assert_eq!(read(&image, b"TIMING", 900, &mut buffer), moved(100, 1));
    assert_eq!(
        (buffer[..100].to_vec(), buffer[100..].to_vec()),
        (vec![0; 100], vec![7; 100])
    );
    assert_eq!(read(&image, b"TIMING", 1_000, &mut buffer), moved(0, 0));
    assert_eq!(read(&image, b"TIMING", 1_001, &mut buffer), plain(15));
    assert_eq!(read(&image, b"TIMING", 1_001, &mut []), plain(15));
    assert_eq!(read(&image, b"TIMING", u32::MAX, &mut buffer), plain(15));
    assert_eq!(read(&image, b"TIMING", 5, &mut []), moved(0, 0));
    let before = image.clone();
    assert_eq!(write(&mut image, b"TIMING", 990, &[9; 30]), moved(10, 1));
    let mut expected = before;
    expected[5 * 512 + 478..5 * 512 + 488].fill(9);
    assert_eq!(image, expected);
    assert_eq!(write(&mut image, b"TIMING", 1_001, &[1]), plain(15));
    assert_eq!(image, expected);
}

#[test]
fn bits_31_and_32_of_the_map() {
    let mut image = blocks(40);
    assert_eq!(create(&mut image, b"a", 28 * 512), Ok(3));
    assert_eq!(image[512..520], [0xFF, 0xFF, 0xFF, 0xFF, 0, 0, 0, 0]);
    assert_eq!(create(&mut image, b"b", 0), Ok(32));
    assert_eq!(image[512..520], [0xFF, 0xFF, 0xFF, 0xFF, 0, 0, 0, 1]);
    remove(&mut image, b"b").unwrap();
    image[519] ^= 1;
    assert_eq!(check(&image), Err(Refusal::at(7, 32)));
    image[519] ^= 1;
    image[512] ^= 0x80;
    assert_eq!(check(&image), Err(Refusal::at(7, 31)));
}

#[test]
fn largest_file_fills_131_blocks() {
    let mut image = blocks(131);
    assert_eq!(create(&mut image, b"a", 65_025), plain(9));
    assert_eq!(create(&mut image, b"a", u32::MAX), plain(9));
    assert_eq!(create(&mut image, b"a", 65_024), Ok(3));
    assert_eq!(free_bytes(&image), Ok(0));
    let mut image = blocks(130);
    let before = image.clone();
    assert_eq!(create(&mut image, b"a", 65_024), plain(12));
    assert_eq!(image, before);
    assert_eq!(create(&mut image, b"a", 65_024 - 512), Ok(3));
}

#[test]
fn lengths_at_the_edges() {
    let mut short = vec![0; 1_535];
    assert_eq!(check(&short), plain(1));
    assert_eq!(format(&mut short, b""), plain(1));
    assert_eq!(format(&mut short, &[0]), plain(1));
    assert_eq!(check(&[]), plain(1));
    let mut least = formatted(1_536);
    assert_eq!(free_bytes(&least), Ok(0));
    assert_eq!(create(&mut least, b"a", 0), plain(12));
    for length in [2_097_152, 2_097_153, 2_097_152 + 512, 2_097_152 + 5_000] {
        let image = formatted(length);
        assert_eq!(free_bytes(&image), Ok(512 * 4_093));
        assert!(image[1536..].iter().all(|&byte| byte == 0x5A));
    }
    assert_eq!(free_bytes(&formatted(2_097_151)), Ok(512 * 4_092));
}

#[test]
fn a_full_directory_with_and_without_room() {
    for count in [28, 40] {
        let mut image = blocks(count);
        for letter in b'a'..b'a' + 25 {
            create(&mut image, &[letter], 0).unwrap();
        }
        assert_eq!(create(&mut image, b"c", 0), plain(10));
        assert_eq!(create(&mut image, b"z", 0), plain(11));
        assert_eq!(create(&mut image, b"z", 65_024), plain(11));
        assert_eq!(create(&mut image, b"c", 65_025), plain(9));
        assert_eq!(create(&mut image, b"", 65_025), plain(8));
    }
}

#[test]
fn names_that_are_refused() {
    let mut image = pump();
    let names: [&[u8]; 6] = [b"", b"\0", b"a\0", b"TIMING\0", &[b'a'; 16], &[b'a'; 4_000]];
    for name in names {
        assert_eq!(create(&mut image, name, 0), plain(8));
        assert_eq!(remove(&mut image, name), plain(8));
        assert_eq!(refused_transfers(&image, name), 8);
        let allowed = if name.is_empty() { Ok(()) } else { plain(8) };
        assert_eq!(format(&mut image.clone(), name), allowed);
    }
    assert_eq!(create(&mut image, &[b'a'; 15], 0), Ok(6));
}

#[test]
fn names_that_do_not_stand() {
    let mut image = pump();
    let names: [&[u8]; 8] = [
        b"TIMIN", b"TIMINGS", b"timing", b"Timing", b"TIMINh", b"TIMING ", b"\x03", b"PUMP",
    ];
    for name in names {
        assert_eq!(remove(&mut image, name), plain(13));
        assert_eq!(refused_transfers(&image, name), 13);
    }
}

/// The refusal of reads and writes of a name at any offset, which change nothing.
fn refused_transfers(image: &[u8], name: &[u8]) -> u32 {
    let mut numbers = Vec::new();
    for offset in [0, 999, 1_000, 1_001, u32::MAX] {
        for length in [0, 4] {
            let (mut after, mut buffer) = (image.to_vec(), vec![7; length]);
            let answers = [
                read(image, name, offset, &mut buffer),
                write(&mut after, name, offset, &vec![9; length]),
            ];
            assert_eq!((&after[..], &buffer), (image, &vec![7; length]));
            numbers.extend(answers.map(|answer| answer.unwrap_err()));
        }
    }
    numbers.dedup();
    assert_eq!((numbers.len(), numbers[0].place), (1, 0));
    numbers[0].number
}

#[test]
fn a_name_means_the_file_that_has_it_now() {
    let mut image = pump();
    write(&mut image, b"TIMING", 0, &[0x33; 1_000]).unwrap();
    remove(&mut image, b"TIMING").unwrap();
    assert_eq!(refused_transfers(&image, b"TIMING"), 13);
    assert_eq!(create(&mut image, b"OTHER", 600), Ok(3));
    assert_eq!(refused_transfers(&image, b"TIMING"), 13);
    assert_eq!(create(&mut image, b"TIMING", 4), Ok(6));

    let mut buffer = [7; 9];
    assert_eq!(read(&image, b"TIMING", 0, &mut buffer), moved(4, 1));
    assert_eq!(buffer, [0, 0, 0, 0, 7, 7, 7, 7, 7]);
    assert_eq!(read(&image, b"TIMING", 5, &mut buffer), plain(15));
    let mut expected = image.clone();
    expected[7 * 512 + 1..7 * 512 + 4].fill(9);
    assert_eq!(write(&mut image, b"TIMING", 1, &[9; 9]), moved(3, 1));
    assert_eq!(image, expected);
    assert_eq!(read(&image, b"OTHER", 0, &mut buffer), moved(9, 1));
    assert_eq!(buffer, [0; 9]);
}

#[test]
fn slots_over_24_are_none() {
    let image = pump();
    assert_eq!(list(&image, 24), Ok(Listing::Free));
    for slot in [25, 26, 256, 0x1_0000, u32::MAX] {
        assert_eq!(list(&image, slot), plain(14));
    }
}

#[test]
fn room_is_known_before_a_name_is_entered() {
    let mut image = blocks(6);
    let before = image.clone();
    assert_eq!(create(&mut image, b"a", 1_025), plain(12));
    assert_eq!(image, before);
}

#[test]
fn new_content_is_wholly_zero() {
    let mut image = blocks(8);
    create(&mut image, b"a", 10).unwrap();
    assert!(image[4 * 512..5 * 512].iter().all(|&byte| byte == 0));
    assert!(image[5 * 512..].iter().all(|&byte| byte == 0x5A));
}

#[test]
fn map_bits_past_the_volume_are_no_room() {
    let mut image = blocks(5);
    assert_eq!(free_bytes(&image), Ok(1_024));
    assert_eq!(create(&mut image, b"a", 1_024), plain(12));
    image[512..1024].fill(0xFF);
    image[515] = 7;
    image[514] = 0;
    image[515] |= 0b1110_0000;
    assert_eq!(check(&image), Ok(()));
    assert_eq!(free_bytes(&image), Ok(1_024));
    create(&mut image, b"a", 512).unwrap();
    assert_eq!(image[512..516], [0xFF, 0xFF, 0, 0xFF]);
    remove(&mut image, b"a").unwrap();
    assert_eq!(image[512..516], [0xFF, 0xFF, 0, 0xE7]);
}

/// Makes an empty volume and sets all bits of its map from its end on.
fn format_padded(image: &mut [u8]) {
    format(image, b"").unwrap();
    for block in image.len() / 512..4096 {
        image[512 + block / 32 * 4 + 3 - block % 32 / 8] |= 1 << (block % 8);
    }
}

#[test]
fn room_at_every_number_of_blocks() {
    let mut space = vec![0x5A; 512 * 4096];
    for count in 3..=4096 {
        let image = &mut space[..512 * count];
        format_padded(image);
        let map = image[512..1024].to_vec();
        let free = count as u32 - 3;
        assert_eq!(free_bytes(image), Ok(512 * free));
        if (1..=128).contains(&free) {
            let more = if free < 128 { 12 } else { 9 };
            assert_eq!(create(image, b"a", 512 * free), plain(more));
            assert_eq!(create(image, b"a", 512 * (free - 1)), Ok(3));
            assert_eq!(free_bytes(image), Ok(0));
            assert_eq!(create(image, b"b", 0), plain(12));
            remove(image, b"a").unwrap();
            assert_eq!(image[512..1024], map);
        }
    }
}

#[test]
fn ignored_bytes_are_kept_but_by_format() {
    let mut image = blocks(9);
    image[20..512].fill(0xEE);
    image[1524..1536].fill(0xEE);
    image[10] = b'x';
    create(&mut image, b"a", 600).unwrap();
    remove(&mut image, b"a").unwrap();
    assert!(image[20..512]
        .iter()
        .chain(&image[1524..1536])
        .all(|&byte| byte == 0xEE));
    assert_eq!(image[10], b'x');
    format(&mut image, b"").unwrap();
    assert!(image[4..512]
        .iter()
        .chain(&image[516..1536])
        .all(|&byte| byte == 0));
}

#[test]
fn remove_touches_only_map_and_slot() {
    let mut image = pump();
    write(&mut image, b"TIMING", 0, &[0x33; 1_000]).unwrap();
    let mut expected = image.clone();
    expected[515] = 7;
    expected[1024..1044].fill(0);
    remove(&mut image, b"TIMING").unwrap();
    assert_eq!(image, expected);
}

#[test]
fn faults_come_in_the_order_of_the_rules() {
    let mut image = blocks(20);
    create(&mut image, b"a", 600).unwrap();
    create(&mut image, b"b", 600).unwrap();
    create(&mut image, b"c", 600).unwrap();
    assert_eq!(check(&image), Ok(()));
    image[513] ^= 0x10; // block 20, past the volume
    assert_eq!(check(&image), Ok(()));
    image[515] ^= 2;
    assert_eq!(check(&image), Err(Refusal::at(7, 1)));
    image[9 * 512 + 8..][..4].copy_from_slice(&[0, 0, 0, 8]);
    assert_eq!(check(&image), Err(Refusal::at(6, 8)));
    image[9 * 512 + 4..][..4].copy_from_slice(&[0, 0, 0, 4]);
    assert_eq!(check(&image), Err(Refusal::at(6, 4)));
    image[6 * 512 + 12] = 1;
    assert_eq!(check(&image), Err(Refusal::at(5, 1)));
    image[3 * 512] = 1;
    assert_eq!(check(&image), Err(Refusal::at(5, 0)));
    slot(&mut image, 24)[4] = 1;
    assert_eq!(check(&image), Err(Refusal::at(4, 24)));
    slot(&mut image, 2)[4] = b'a';
    assert_eq!(check(&image), Err(Refusal::at(4, 2)));
    image[4..20].fill(b'n');
    assert_eq!(check(&image), plain(3));
    image[0] = 1;
    assert_eq!(check(&image), plain(2));
    assert_eq!(list(&image, 99), plain(2));
    assert_eq!(free_bytes(&image), plain(2));
    assert_eq!(create(&mut image, b"", u32::MAX), plain(2));
    assert_eq!(remove(&mut image, b""), plain(2));
    assert_eq!(read(&image, b"", u32::MAX, &mut []), plain(2));
    assert_eq!(write(&mut image, b"", u32::MAX, &[]), plain(2));
}

#[test]
fn a_shared_inode_doubles_all_its_blocks() {
    let mut image = blocks(20);
    create(&mut image, b"a", 600).unwrap();
    create(&mut image, b"b", 600).unwrap();
    slot(&mut image, 1)[3] = 3;
    assert_eq!(check(&image), Err(Refusal::at(6, 3)));
    slot(&mut image, 0)[3] = 6;
    slot(&mut image, 1)[3] = 6;
    image[6 * 512 + 7] = 4;
    assert_eq!(check(&image), Err(Refusal::at(6, 4)));
}

/// Checks a volume whose last slot has this inode number and name; block 3 may be its inode.
fn check_slot(inode: u8, name: &[u8; 16]) -> Result<(), Refusal> {
    let mut image = blocks(8);
    image[3 * 512..4 * 512].fill(0);
    image[515] = if inode == 3 { 0b1111 } else { 0b0111 };
    slot(&mut image, 24)[3] = inode;
    slot(&mut image, 24)[4..].copy_from_slice(name);
    check(&image)
}

#[test]
fn a_slot_is_free_or_used_or_at_fault() {
    const PADDED: &[u8; 16] = b"a\0\0\0\0\0\0\0\0\0\0\0\0\0\0\0";
    let sound: [(u8, &[u8; 16]); 11] = [
        (3, PADDED),
        (3, b"abcdefghijklmno\0"),
        (3, b"abcdefghijklmn\0x"),
        (3, b"a\0bcdefghijklmno"),
        (3, b"a\0b\0\0\0\0\0\0\0\0\0\0\0\0\0"),
        (3, b"a\0\0\0\0\0\0\0\0\0\0\0\0\0\0x"),
        (0, &[0; 16]),
        (0, b"\0abcdefghijklmno"),
        (0, b"\0a\0\0\0\0\0\0\0\0\0\0\0\0\0\0"),
        (0, b"\0\0\0\0\0\0\0\0\0\0\0\0\0\0\0x"),
        (0, b"\0\0TIMING\0\0\0\0\0\0\0\0"),
    ];
    for (inode, name) in sound {
        assert_eq!(check_slot(inode, name), Ok(()), "{inode} {name:?}");
    }
    let unsound: [(u8, &[u8; 16]); 13] = [
        (0, PADDED),
        (0, b"a\0bcdefghijklmno"),
        (0, b"abcdefghijklmnop"),
        (3, &[0; 16]),
        (3, b"\0abcdefghijklmno"),
        (3, b"\0\0\0\0\0\0\0\0\0\0\0\0\0\0\0x"),
        (3, b"abcdefghijklmnop"),
        (1, PADDED),
        (2, PADDED),
        (8, PADDED),
        (255, PADDED),
        (1, &[0; 16]),
        (8, b"\0abcdefghijklmno"),
    ];
    for (inode, name) in unsound {
        let fault = Err(Refusal::at(4, 24));
        assert_eq!(check_slot(inode, name), fault, "{inode} {name:?}");
    }
}

/// Files of no bytes in slots 0, 1 and so on, with these bytes in place of their names.
fn named(names: &[&[u8]]) -> Vec<u8> {
    let mut image = blocks(12);
    for letter in (b'a'..).take(names.len()) {
        create(&mut image, &[letter], 0).unwrap();
    }
    for (index, name) in names.iter().enumerate() {
        slot(&mut image, index)[4..][..name.len()].copy_from_slice(name);
    }
    image
}

#[test]
fn names_are_compared_up_to_the_zero() {
    let repeated: [(&[&[u8]], u32); 5] = [
        (&[b"name\0one", b"name\0two"], 1),
        (&[b"name", b"x", b"name\0two"], 2),
        (&[b"name\0one", b"x\0one", b"name"], 2),
        (&[b"name\0\0\0\0\0\0\0\0\0\0\0x", b"name\0x"], 1),
        (&[b"name\0one", b"name\0two", b"name\0three"], 1),
    ];
    for (names, place) in repeated {
        let image = named(names);
        assert_eq!(check(&image), Err(Refusal::at(4, place)), "{names:?}");
    }
    let different: [&[&[u8]]; 4] = [
        &[b"name\0x", b"namex"],
        &[b"name\0left", b"left\0name"],
        &[b"n\0ame", b"na\0me", b"nam\0e"],
        &[b"abcdefghijklmno", b"abcdefghijklmn\0o"],
    ];
    for names in different {
        assert_eq!(check(&named(names)), Ok(()), "{names:?}");
    }
}

/// The volume of `pump` with leftovers behind the name and in the two slots after it.
fn pump_with_leftovers() -> Vec<u8> {
    let mut image = pump();
    slot(&mut image, 0)[11..].copy_from_slice(b"old bytes");
    slot(&mut image, 1)[5..].copy_from_slice(b"all of 15 bytes");
    slot(&mut image, 2)[19] = b'x';
    image
}

#[test]
fn leftovers_are_no_part_of_a_name() {
    let mut image = pump_with_leftovers();
    assert_eq!(list(&image, 0), Ok(TIMING));
    assert_eq!(list(&image, 1), Ok(Listing::Free));
    assert_eq!(list(&image, 2), Ok(Listing::Free));
    assert_eq!(create(&mut image, b"TIMING", 0), plain(10));
    for name in [&b"old bytes"[..], b"all of 15 bytes", b"x", b"IMING"] {
        assert_eq!(remove(&mut image, name), plain(13));
        assert_eq!(refused_transfers(&image, name), 13);
    }
    for name in [&b"TIMING\0"[..], b"TIMING\0old bytes", b"\0all of 15 byte"] {
        assert_eq!(remove(&mut image, name), plain(8));
        assert_eq!(refused_transfers(&image, name), 8);
    }
}

#[test]
fn create_takes_a_free_slot_with_leftovers_and_remove_zeros_it() {
    let before = pump_with_leftovers();
    let mut image = before.clone();
    assert_eq!(create(&mut image, b"new", 600), Ok(6));
    let mut expected = before[1024..1536].to_vec();
    expected[20..40].copy_from_slice(b"\0\0\0\x06new\0\0\0\0\0\0\0\0\0\0\0\0\0");
    assert_eq!(image[1024..1536], expected);
    remove(&mut image, b"new").unwrap();
    expected[20..40].fill(0);
    assert_eq!(image[1024..1536], expected);
    assert_eq!(image[512..1024], before[512..1024]);
    remove(&mut image, b"TIMING").unwrap();
    expected[..20].fill(0);
    assert_eq!(image[1024..1536], expected);
}

#[test]
fn a_full_directory_may_have_leftovers() {
    let mut image = blocks(40);
    for index in 0..25 {
        create(&mut image, &[b'a' + index as u8], 0).unwrap();
        slot(&mut image, index)[6..].fill(b'z');
    }
    assert_eq!(create(&mut image, b"zzz", 0), plain(11));
    remove(&mut image, b"q").unwrap();
    slot(&mut image, 16)[5..].fill(b'z');
    assert_eq!(create(&mut image, b"zzz", 0), Ok(19));
}

/// The answers of some requests, one after another, and the bytes that the read gives.
fn answers_in_turn(image: &mut [u8]) -> (Vec<Result<u32, Refusal>>, [u8; 40]) {
    let mut buffer = [7; 40];
    let count = |moved: Transferred| moved.count;
    let answers = vec![
        write(image, b"TIMING", 990, &[0x33; 30]).map(count),
        create(image, b"old bytes", 700),
        create(image, b"TIMING", 0),
        write(image, b"old bytes", 0, &[0x44; 9]).map(count),
        free_bytes(image),
        remove(image, b"x").map(|()| 0),
        remove(image, b"old bytes").map(|()| 0),
        read(image, b"TIMING", 980, &mut buffer).map(count),
        check(image).map(|()| 0),
    ];
    (answers, buffer)
}

#[test]
fn leftovers_are_ignored_and_kept() {
    let (mut clean, mut image) = (pump(), pump_with_leftovers());
    let before = image.clone();
    assert_eq!(answers_in_turn(&mut image), answers_in_turn(&mut clean));
    assert_eq!(image[..1024], clean[..1024]);
    assert_eq!(image[1024..1044], before[1024..1044]);
    assert_eq!(image[1044..1064], [0; 20]);
    assert_eq!(image[1064..1536], before[1064..1536]);
    assert_eq!(image[1536..], clean[1536..]);
}

/// A file "f" of some size whose content blocks stand in falling order, and then a file "g".
fn falling(size: u32) -> Vec<u8> {
    let mut image = blocks(160);
    create(&mut image, b"f", size).unwrap();
    create(&mut image, b"g", 1_500).unwrap();
    let count = size.div_ceil(512) as usize;
    image[3 * 512 + 4..][..4 * count]
        .as_chunks_mut::<4>()
        .0
        .reverse();
    assert_eq!(check(&image), Ok(()));
    image
}

/// The distinct numbers that the inode of "f" lists for the bytes of a range, byte by byte.
fn listed_blocks(image: &[u8], offset: u32, count: u32) -> HashSet<u32> {
    let listed = |position: u32| {
        let at = 3 * 512 + 4 + 4 * (position as usize / 512);
        u32::from_be_bytes(image[at..at + 4].try_into().unwrap())
    };
    (offset..offset + count).map(listed).collect()
}

/// The answer of a read of "f" and of a write with such a buffer, which is the same.
fn both_moved(image: &[u8], offset: u32, length: usize) -> Result<Transferred, Refusal> {
    let mut after = image.to_vec();
    let answer = read(image, b"f", offset, &mut vec![0; length]);
    let written = write(&mut after, b"f", offset, &vec![7; length]);
    assert_eq!(answer, written, "{offset} {length}");
    answer
}

#[test]
fn a_count_of_0_meets_no_block() {
    let image = falling(1_300);
    for offset in [0, 1, 511, 512, 513, 1_024, 1_100, 1_299, 1_300] {
        assert_eq!(both_moved(&image, offset, 0), moved(0, 0), "{offset}");
    }
    for length in [1, 511, 512, 513, 5_000] {
        assert_eq!(both_moved(&image, 1_300, length), moved(0, 0), "{length}");
    }
    for size in [0, 512, 1_024, 65_024] {
        assert_eq!(both_moved(&falling(size), size, 600), moved(0, 0), "{size}");
    }
}

#[test]
fn blocks_of_ranges_around_an_edge() {
    let image = falling(1_300);
    // Offset, length of the buffer; count and blocks.
    let ranges = [
        (0, 1, 1, 1),
        (0, 511, 511, 1),
        (0, 512, 512, 1),
        (0, 513, 513, 2),
        (0, 1_024, 1_024, 2),
        (0, 1_025, 1_025, 3),
        (1, 511, 511, 1),
        (1, 512, 512, 2),
        (1, 1_023, 1_023, 2),
        (1, 1_024, 1_024, 3),
        (511, 1, 1, 1),
        (511, 2, 2, 2),
        (511, 513, 513, 2),
        (511, 514, 514, 3),
        (512, 1, 1, 1),
        (512, 512, 512, 1),
        (512, 513, 513, 2),
        (513, 511, 511, 1),
        (513, 512, 512, 2),
        (1_023, 2, 2, 2),
        (0, 1_300, 1_300, 3),
        (0, 9_000, 1_300, 3),
        (511, 9_000, 789, 3),
        (1_023, 600, 277, 2),
        (1_024, 600, 276, 1),
        (1_299, 600, 1, 1),
    ];
    for (offset, length, count, blocks) in ranges {
        let answer = both_moved(&image, offset, length);
        assert_eq!(answer, moved(count, blocks), "{offset} {length}");
    }
}

#[test]
fn blocks_of_whole_files() {
    for size in [1, 511, 512, 513, 1_023, 1_024, 1_025, 65_023, 65_024] {
        let (image, all) = (falling(size), size.div_ceil(512));
        for length in [size as usize, size as usize + 1, 70_000] {
            assert_eq!(both_moved(&image, 0, length), moved(size, all), "{size}");
        }
    }
}

#[test]
fn refused_transfers_meet_no_block() {
    let image = falling(1_300);
    for length in [0, 1, 600] {
        assert_eq!(both_moved(&image, 1_301, length), plain(15));
        assert_eq!(both_moved(&image, u32::MAX, length), plain(15));
    }
}

#[test]
fn blocks_are_those_that_the_inode_lists() {
    let size = 2_600;
    let image = falling(size);
    for offset in (0..=size).filter(|offset| offset % 7 == 0 || (offset + 2) % 512 < 5) {
        for length in [
            0, 1, 2, 3, 300, 509, 511, 512, 513, 515, 1_024, 1_100, 2_600,
        ] {
            let count = length.min(size - offset);
            let distinct = listed_blocks(&image, offset, count).len() as u32;
            let answer = both_moved(&image, offset, length as usize);
            assert_eq!(answer, moved(count, distinct), "{offset} {length}");
        }
    }
}

#[test]
fn the_greatest_number_of_blocks_is_reached_and_not_exceeded() {
    for count in 1..=66_000 {
        let most = (count + 510) / 512 + 1;
        let met = (0..512).map(|offset| blocks_met(offset, count, 512));
        assert_eq!(met.max(), Some(most), "{count}");
    }
    let image = falling(65_024);
    for count in (1..=64_513).filter(|count| count % 97 == 0 || (count + 2) % 512 < 5) {
        let most = (count + 510) / 512 + 1;
        let answer = read(&image, b"f", 511, &mut vec![0; count as usize]);
        assert_eq!(answer, moved(count, most), "{count}");
    }
}
