//! The stores of create, remove and write, with numbers worked out by hand.

use reference::tfs::{
    check, create, create_store, format, list, read, remove, remove_store, write, write_store,
    Listing,
};
use reference::Refusal;

const REFUSED_32: Refusal = Refusal::plain(32);

/// A store: the number of the block, and its bytes.
type Store = (u32, Vec<u8>);

fn formatted(length: usize) -> Vec<u8> {
    let mut image = vec![0x5A; length];
    format(&mut image, b"PUMP").unwrap();
    image
}

fn pump() -> Vec<u8> {
    let mut image = formatted(65_536);
    create(&mut image, b"TIMING", 1_000).unwrap();
    image
}

/// A block that begins with these bytes and is zero behind them.
fn begins(bytes: &[u8]) -> Vec<u8> {
    let mut block = vec![0; 512];
    block[..bytes.len()].copy_from_slice(bytes);
    block
}

/// All stores of a request, and the refusal behind the last.
fn series(store: impl Fn(usize, &mut [u8]) -> Result<u32, Refusal>) -> (Vec<Store>, Refusal) {
    let mut stores = Vec::new();
    loop {
        let mut block = [0xEE; 512];
        match store(stores.len() + 1, &mut block) {
            Ok(number) => stores.push((number, block.to_vec())),
            Err(refusal) => return (stores, refusal),
        }
    }
}

fn create_series(image: &[u8], name: &[u8], size: u32) -> (Vec<Store>, Refusal) {
    series(|k, buffer| create_store(image, name, size, k, buffer))
}

fn remove_series(image: &[u8], name: &[u8]) -> (Vec<Store>, Refusal) {
    series(|k, buffer| remove_store(image, name, k, buffer))
}

fn write_series(image: &[u8], name: &[u8], offset: u32, bytes: &[u8]) -> (Vec<Store>, Refusal) {
    series(|k, buffer| write_store(image, name, offset, bytes, k, buffer))
}

/// Puts stores into an image.
fn apply(image: &mut [u8], stores: &[Store]) {
    for (number, block) in stores {
        image[512 * *number as usize..][..512].copy_from_slice(block);
    }
}

#[test]
fn create_of_timing_is_five_stores() {
    let image = formatted(65_536);
    let slot = [0, 0, 0, 3, 0x54, 0x49, 0x4D, 0x49, 0x4E, 0x47];
    let inode = [0, 0, 3, 0xE8, 0, 0, 0, 4, 0, 0, 0, 5];
    let expected = [
        (4, vec![0; 512]),
        (5, vec![0; 512]),
        (3, begins(&inode)),
        (1, begins(&[0, 0, 0, 0x3F])),
        (2, begins(&slot)),
    ];
    let (stores, end) = create_series(&image, b"TIMING", 1_000);
    assert_eq!((&stores[..], end), (&expected[..], REFUSED_32));
    let mut programmed = image;
    apply(&mut programmed, &stores);
    assert_eq!(programmed, pump());
}

#[test]
fn a_create_has_a_store_for_each_content_block_and_three_more() {
    let image = formatted(131 * 512);
    for (size, count) in [
        (0, 3),
        (1, 4),
        (511, 4),
        (512, 4),
        (513, 5),
        (1_024, 5),
        (1_025, 6),
        (65_024, 130),
    ] {
        let (stores, end) = create_series(&image, b"A", size);
        assert_eq!((stores.len(), end), (count, REFUSED_32), "{size}");
        let numbers: Vec<u32> = stores.iter().map(|(number, _)| *number).collect();
        let mut expected: Vec<u32> = (4..4 + count as u32 - 3).collect();
        expected.extend([3, 1, 2]);
        assert_eq!(numbers, expected, "{size}");
    }
}

#[test]
fn remove_of_timing_is_two_stores() {
    let mut image = pump();
    let (stores, end) = remove_series(&image, b"TIMING");
    let expected = [(2, vec![0; 512]), (1, begins(&[0, 0, 0, 7]))];
    assert_eq!((&stores[..], end), (&expected[..], REFUSED_32));
    let mut programmed = image.clone();
    apply(&mut programmed, &stores);
    remove(&mut image, b"TIMING").unwrap();
    assert_eq!(programmed, image);
}

#[test]
fn a_write_is_a_store_for_each_block_met() {
    let image = pump();
    let mut last = vec![0; 512];
    last[478..488].fill(9);
    let (stores, end) = write_series(&image, b"TIMING", 990, &[9; 30]);
    assert_eq!((stores, end), (vec![(5, last)], REFUSED_32));

    let mut first = vec![0; 512];
    first[511] = 1;
    let (stores, end) = write_series(&image, b"TIMING", 511, &[1, 2]);
    assert_eq!(
        (stores, end),
        (vec![(4, first), (5, begins(&[2]))], REFUSED_32)
    );

    let (stores, _) = write_series(&image, b"TIMING", 0, &[7; 2_000]);
    let mut programmed = image.clone();
    apply(&mut programmed, &stores);
    let mut written = image;
    write(&mut written, b"TIMING", 0, &[7; 2_000]).unwrap();
    assert_eq!((stores.len(), programmed), (2, written));
}

#[test]
fn a_write_of_no_bytes_has_no_store() {
    let image = pump();
    for (offset, length) in [(0, 0), (512, 0), (700, 0), (1_000, 0), (1_000, 40)] {
        let (stores, end) = write_series(&image, b"TIMING", offset, &vec![1; length]);
        assert_eq!((stores.len(), end), (0, REFUSED_32), "{offset} {length}");
    }
}

/// The third file takes the blocks that the second had between the others, and then others.
#[test]
fn content_blocks_come_in_the_files_order() {
    let mut image = formatted(16 * 512);
    for (name, size) in [(b"A", 512), (b"B", 512), (b"C", 0)] {
        create(&mut image, name, size).unwrap();
    }
    remove(&mut image, b"A").unwrap();
    // Blocks 3, 4 and from 8 on are free.
    let (stores, _) = create_series(&image, b"D", 1_500);
    let numbers: Vec<u32> = stores.iter().map(|(number, _)| *number).collect();
    assert_eq!(numbers, [4, 8, 9, 3, 1, 2]);
    create(&mut image, b"D", 1_500).unwrap();
    let (stores, _) = write_series(&image, b"D", 500, &[1; 600]);
    let numbers: Vec<u32> = stores.iter().map(|(number, _)| *number).collect();
    assert_eq!(numbers, [4, 8, 9]);
}

/// Blocks that stay as they are have their stores too, and padding and ignored bytes are kept.
#[test]
fn blocks_are_stored_whole_and_though_nothing_changes() {
    let mut image = formatted(10 * 512);
    image[1024 - 4..1024].copy_from_slice(&[0xAB; 4]);
    image[1524..1536].fill(0xCD);
    image[4 * 512..5 * 512].fill(0);
    let (stores, _) = create_series(&image, b"A", 1);
    assert_eq!(stores[0], (4, vec![0; 512]));
    assert_eq!(stores[2].1[508..], [0xAB; 4]);
    assert_eq!(stores[3].1[500..], [0xCD; 12]);
    create(&mut image, b"A", 1).unwrap();
    let (stores, _) = write_series(&image, b"A", 0, &[0]);
    assert_eq!(stores, [(4, vec![0; 512])]);
    let (stores, _) = remove_series(&image, b"A");
    assert_eq!(stores[0].1[500..], [0xCD; 12]);
    assert_eq!(stores[1].1[508..], [0xAB; 4]);
}

/// The stores that three requests on the volume of the pump have, asked for by k.
fn asked(image: &[u8], k: usize, buffer: &mut [u8]) -> [Result<u32, Refusal>; 3] {
    [
        create_store(image, b"A", 513, k, buffer),
        remove_store(image, b"TIMING", k, buffer),
        write_store(image, b"TIMING", 100, &[3; 900], k, buffer),
    ]
}

#[test]
fn k_counts_from_1_to_the_last_over_its_full_width() {
    let image = pump();
    let mut buffer = [0xEE; 600];
    for k in [
        0,
        6,
        usize::MAX,
        1 << 31,
        1 << 32,
        (1 << 32) + 1,
        (1 << 32) + 2,
        (3 << 32) + 1,
        1 << 63 | 1,
    ] {
        assert_eq!(asked(&image, k, &mut buffer), [Err(REFUSED_32); 3], "{k}");
        assert_eq!(buffer, [0xEE; 600]);
    }
    let numbers = |k| asked(&image, k, &mut [0; 512]);
    assert_eq!(numbers(1), [Ok(7), Ok(2), Ok(4)]);
    assert_eq!(numbers(2), [Ok(8), Ok(1), Ok(5)]);
    assert_eq!(numbers(3), [Ok(6), Err(REFUSED_32), Err(REFUSED_32)]);
    assert_eq!(numbers(4), [Ok(1), Err(REFUSED_32), Err(REFUSED_32)]);
    assert_eq!(numbers(5), [Ok(2), Err(REFUSED_32), Err(REFUSED_32)]);
}

#[test]
fn a_buffer_has_a_block_or_more() {
    let image = pump();
    for length in [0, 1, 511] {
        let mut buffer = vec![0xEE; length];
        assert_eq!(asked(&image, 1, &mut buffer), [Err(REFUSED_32); 3]);
        assert_eq!(buffer, vec![0xEE; length]);
    }
    for length in [512, 513, 2_000] {
        let mut buffer = vec![0xEE; length];
        assert_eq!(remove_store(&image, b"TIMING", 2, &mut buffer), Ok(1));
        assert_eq!(buffer[..512], begins(&[0, 0, 0, 7]));
        assert!(buffer[512..].iter().all(|&byte| byte == 0xEE));
    }
}

#[test]
fn a_requests_own_refusals_go_before_32() {
    let mut image = pump();
    let plain = |number| Err(Refusal::plain(number));
    for (k, length) in [(0, 0), (0, 512), (1, 511), (1, 512), (9, 512)] {
        let buffer = &mut vec![0xEE; length][..];
        for (name, size, number) in [
            (&b""[..], 0, 8),
            (b"A\0", 65_025, 8),
            (b"TIMING", 65_025, 9),
            (b"TIMING", 65_024, 10),
            (b"A", 65_024, 12),
        ] {
            assert_eq!(create_store(&image, name, size, k, buffer), plain(number));
        }
        assert_eq!(remove_store(&image, b"", k, buffer), plain(8));
        assert_eq!(remove_store(&image, b"A", k, buffer), plain(13));
        for (name, offset, number) in [
            (&b""[..], 2_000, 8),
            (b"A", 2_000, 13),
            (b"TIMING", 1_001, 15),
        ] {
            assert_eq!(
                write_store(&image, name, offset, b"", k, buffer),
                plain(number)
            );
        }
    }
    for name in 1..25 {
        create(&mut image, &[name], 0).unwrap();
    }
    assert_eq!(create_store(&image, b"A", 0, 0, &mut []), plain(11));
    assert_eq!(create_store(&image, b"TIMING", 0, 0, &mut []), plain(10));
    image[515] ^= 8;
    let refused = Err(Refusal::at(7, 3));
    assert_eq!(create_store(&image, b"", 65_025, 0, &mut []), refused);
    assert_eq!(remove_store(&image, b"", 0, &mut []), refused);
    assert_eq!(write_store(&image, b"", 9_999, b"", 0, &mut []), refused);
}

/// After each store of a create the old names stand, and after the last the new ones.
#[test]
fn cuts_of_the_example() {
    let mut image = formatted(65_536);
    let (stores, _) = create_series(&image, b"TIMING", 1_000);
    for (index, owed) in [Ok(()), Ok(()), Ok(()), Err(Refusal::at(7, 3)), Ok(())]
        .into_iter()
        .enumerate()
    {
        apply(&mut image, &stores[index..=index]);
        assert_eq!(check(&image), owed, "{index}");
    }
    let listed = Listing::Used {
        name: b"TIMING",
        inode: 3,
        size: 1_000,
    };
    assert_eq!(list(&image, 0), Ok(listed));
    let (stores, _) = remove_series(&image, b"TIMING");
    apply(&mut image, &stores[..1]);
    assert_eq!(check(&image), Err(Refusal::at(7, 3)));
    assert_eq!(read(&image, b"TIMING", 0, &mut []).unwrap_err().place, 3);
    apply(&mut image, &stores[1..]);
    assert_eq!(check(&image), Ok(()));
    assert_eq!(list(&image, 0), Ok(Listing::Free));
}
