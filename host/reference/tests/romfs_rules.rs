//! The numbers and the edges that the rules name, for romfs.

use reference::romfs::{check, content, content_length, entry, find, Entry, FileType};
use reference::Refusal;

fn at<T>(number: u32, place: u32) -> Result<T, Refusal> {
    Err(Refusal { number, place })
}

fn bytes(words: &[u32]) -> Vec<u8> {
    words.iter().flat_map(|word| word.to_be_bytes()).collect()
}

/// The image of 64 bytes that the rules spell out.
fn smallest() -> Vec<u8> {
    bytes(&[
        0x2D72_6F6D,
        0x3166_732D,
        0x40,
        0x4B27_1D26,
        0x5600_0000,
        0,
        0,
        0, //
        2,
        0,
        0,
        0x9EFF_FFFE,
        0x6100_0000,
        0,
        0,
        0,
    ])
}

fn seal(part: &mut [u8]) {
    part[12..16].fill(0);
    let words = part
        .chunks_exact(4)
        .map(|word| u32::from_be_bytes(word.try_into().unwrap()));
    let sum = words.fold(0, u32::wrapping_add);
    part[12..16].copy_from_slice(&sum.wrapping_neg().to_be_bytes());
}

/// An image with headers of short names at given offsets: next and type, spec.info, size, name.
fn image(full_size: usize, headers: &[(usize, u32, u32, u32, &[u8])]) -> Vec<u8> {
    let mut image = vec![0xC3; full_size];
    image[..8].copy_from_slice(b"-rom1fs-");
    image[8..12].copy_from_slice(&(full_size as u32).to_be_bytes());
    image[16..32].fill(0);
    for &(at, tagged, spec, size, name) in headers {
        let end = at + 16 + (name.len() + 1).next_multiple_of(16);
        image[at..at + 12].copy_from_slice(&bytes(&[tagged, spec, size]));
        image[at + 16..end].fill(0);
        image[at + 16..at + 16 + name.len()].copy_from_slice(name);
        seal(&mut image[at..end]);
    }
    let covered = full_size.min(512);
    seal(&mut image[..covered]);
    image
}

#[test]
fn the_smallest_file() {
    let image = smallest();
    assert_eq!(check(&image), Ok(()));
    assert_eq!(find(&image, 0, b"a"), Ok(32));
    let expected = Entry {
        file_type: FileType::RegularFile,
        executable: false,
        info: 0,
        size: 0,
        next: 0,
        name_length: 1,
    };
    assert_eq!(entry(&image, 32), Ok(expected));
    assert_eq!(content_length(&image, 32), Ok(0));
    assert!(content(&image, 32).is_empty());
    for name in [&b""[..], b"b", b"aa", b"a\0"] {
        assert_eq!(find(&image, 0, name), at(30, 0));
    }
    for offset in [0, 16, 31, 33, 48, 64, u32::MAX] {
        assert_eq!(entry(&image, offset), at(31, 0));
        assert_eq!(content_length(&image, offset), at(31, 0));
    }
    assert_eq!(find(&image, 32, b"a"), at(31, 0));
}

#[test]
fn the_label() {
    let good = smallest();
    assert_eq!(check(&good[..31]), at(21, 0));
    assert_eq!(check(&good[..63]), at(23, 0));
    let mut longer = good.clone();
    longer.extend([1, 2, 3]);
    assert_eq!(check(&longer), Ok(()));
    let with = |index: usize, byte: u8| {
        let mut image = good.clone();
        image[index] = byte;
        image
    };
    assert_eq!(check(&with(7, b'_')), at(22, 0));
    assert_eq!(check(&with(11, 0x41)), at(23, 0));
    assert_eq!(check(&with(11, 16)), at(23, 0));
    assert_eq!(check(&with(15, 0)), at(24, 0));
    assert_eq!(check(&with(63, 1)), at(24, 0));
    let mut empty = image(32, &[]);
    assert_eq!(check(&empty), Ok(()));
    assert_eq!(find(&empty, 0, b"a"), at(30, 0));
    empty[16..32].fill(b'n');
    seal(&mut empty);
    assert_eq!(check(&empty), at(25, 0));
}

#[test]
fn an_empty_root_needs_the_full_size_to_end_there() {
    let mut padded = vec![0; 1024];
    padded[..8].copy_from_slice(b"-rom1fs-");
    padded[10] = 4;
    seal(&mut padded[..512]);
    assert_eq!(check(&padded), at(26, 32));
}

#[test]
fn rule_26_in_its_parts() {
    let one =
        |tagged, spec, size, name: &[u8]| check(&image(96, &[(32, tagged, spec, size, name)]));
    assert_eq!(one(2, 0, 32, b"a"), Ok(()));
    assert_eq!(one(3, 0, 17, b"a"), Ok(()));
    for size in [33, 48, 0x7FFF_FFFF, 0xFFFF_FFD0, 0xFFFF_FFF0, u32::MAX] {
        assert_eq!(one(2, 0, size, b"a"), at(26, 32));
    }
    assert_eq!(one(2, 0, 0, b""), at(26, 32));
    for file_type in [2, 3, 6, 7] {
        assert_eq!(one(file_type, 0, 0, b"a"), Ok(()));
        assert_eq!(one(file_type | 8, 16, 0, b"a"), at(26, 32));
    }
    for file_type in [0, 1, 4, 5, 6, 7] {
        assert_eq!(one(file_type, 0, 1, b"a"), at(26, 32));
    }
    for file_type in [4, 5] {
        assert_eq!(one(file_type, 0xFFFF_FFFF, 0, b"a"), Ok(()));
    }
    let mut endless = image(64, &[(32, 2, 0, 0, b"a")]);
    endless[48..].fill(b'a');
    seal(&mut endless[32..]);
    seal(&mut endless);
    assert_eq!(check(&endless), at(26, 32));
    let stub = image(80, &[(32, 64 | 2, 0, 0, b"a")]);
    assert_eq!(check(&stub), at(26, 64));
    let mut summed = image(64, &[(32, 2, 0, 0, b"a")]);
    summed[44] ^= 1;
    seal(&mut summed);
    assert_eq!(check(&summed), at(26, 32));
}

#[test]
fn long_names_fill_more_units() {
    for (length, end) in [(15, 64), (16, 80), (31, 80), (32, 96)] {
        let name = vec![b'n'; length];
        let made = image(end, &[(32, 2, 0, 0, &name)]);
        assert_eq!(check(&made), Ok(()));
        assert_eq!(
            entry(&made, 32).map(|entry| entry.name_length),
            Ok(length as u32)
        );
        let made = image(end, &[(32, 2, 0, 1, &name)]);
        assert_eq!(check(&made), at(26, 32));
    }
}

#[test]
fn rule_27_for_next_and_first() {
    let next = |next: u32| {
        check(&image(
            128,
            &[(32, next | 2, 0, 5, b"a"), (96, 7, 0, 0, b"b")],
        ))
    };
    assert_eq!(next(96), Ok(()));
    assert_eq!(next(80), at(26, 80));
    for wrong in [16, 32, 48, 64, 128, 144, 0xFFFF_FFF0] {
        assert_eq!(next(wrong), at(27, 32));
    }
    let first = |first: u32| {
        check(&image(
            160,
            &[
                (32, 128 | 1, first, 0, b"d"),
                (64, 2, 0, 0, b"a"),
                (128, 7, 0, 0, b"b"),
            ],
        ))
    };
    assert_eq!(first(64), Ok(()));
    assert_eq!(first(0), Ok(()));
    for wrong in [1, 15, 16, 32, 48, 65, 72, 128, 144, 160, u32::MAX] {
        assert_eq!(first(wrong), at(27, 32));
    }
}

#[test]
fn an_inner_list_ends_at_its_directorys_next() {
    let inner = |size: u32, next: u32| {
        check(&image(
            192,
            &[
                (32, 128 | 1, 64, 0, b"d"),
                (64, next | 2, 0, size, b"a"),
                (128, 7, 0, 0, b"b"),
            ],
        ))
    };
    assert_eq!(inner(32, 0), Ok(()));
    assert_eq!(inner(33, 0), at(26, 64));
    assert_eq!(inner(0, 128), at(27, 64));
}

/// Directories one in another, the innermost list holding an entry of a type.
fn nested(depth: usize, tagged: u32, spec: u32, name: &[u8]) -> Vec<u8> {
    let mut headers: Vec<(usize, u32, u32, u32, &[u8])> = (1..depth)
        .map(|level| (32 * level, 1, 32 * level as u32 + 32, 0, &b"d"[..]))
        .collect();
    headers.push((32 * depth, tagged, spec, 0, name));
    image(32 * depth + 32, &headers)
}

#[test]
fn lists_go_down_to_depth_8() {
    assert_eq!(check(&nested(8, 2, 0, b"a")), Ok(()));
    assert_eq!(check(&nested(8, 1, 0, b"a")), Ok(()));
    assert_eq!(check(&nested(8, 1, 32, b".")), Ok(()));
    assert_eq!(check(&nested(9, 2, 0, b"a")), at(28, 32 * 8));
    assert_eq!(check(&nested(10, 2, 0, b"a")), at(28, 32 * 8));
    assert_eq!(check(&nested(8, 1, 32 * 9, b"a")), at(27, 32 * 8));
}

#[test]
fn links_lead_to_reached_headers() {
    let link = |tagged: u32, spec: u32, name: &[u8]| {
        let image = image(
            176,
            &[
                (32, 64 | tagged, spec, 0, name),
                (64, 112 | 2, 0, 3, b"f"),
                (112, 144, 64, 0, b"l"),
                (144, 7, 0, 0, b"p"),
            ],
        );
        check(&image)
    };
    assert_eq!(link(0, 64, b"h"), Ok(()));
    assert_eq!(link(8, 144, b"h"), Ok(()));
    for wrong in [0, 16, 32, 65, 96, 112, 160, 176, u32::MAX] {
        assert_eq!(link(0, wrong, b"h"), at(29, 32));
    }
    for name in [&b"."[..], b".."] {
        for reached in [32, 64, 112, 144] {
            assert_eq!(link(1, reached, name), Ok(()));
        }
        for wrong in [0, 16, 48, 65, 96, 176, u32::MAX] {
            assert_eq!(link(9, wrong, name), at(29, 32));
        }
    }
    assert_eq!(link(0, 64, b"."), Ok(()));
    assert_eq!(link(1, 32, b"..."), at(27, 32));
}

#[test]
fn the_lowest_link_counts_after_the_walk() {
    let made = |last: u32| {
        image(
            128,
            &[
                (32, 64, 0, 0, b"l"),
                (64, 96 | 1, 0, 0, b"."),
                (96, last, 0, 0, b"x"),
            ],
        )
    };
    assert_eq!(check(&made(7)), at(29, 32));
    assert_eq!(check(&made(7 | 32)), at(27, 96));
}

/// An allowed image: a directory with `..` and a file, a link to it, `.`, and a header not reached.
fn tree() -> Vec<u8> {
    let mut made = image(
        256,
        &[
            (32, 160 | 1, 64, 0, b"d"),
            (64, 96 | 9, 32, 0, b".."),
            (96, 0xA, 0, 21, b"f"),
            (160, 192, 32, 0, b"l"),
            (192, 1, 96, 0, b"."),
            (224, 7, 0, 0, b"u"),
        ],
    );
    made[128..149].copy_from_slice(b"twenty-one characters");
    seal(&mut made);
    assert_eq!(check(&made), Ok(()));
    made
}

#[test]
fn find_in_a_tree() {
    let made = tree();
    assert_eq!(find(&made, 0, b"d"), Ok(32));
    assert_eq!(find(&made, 0, b"f"), at(30, 0));
    assert_eq!(find(&made, 32, b"f"), Ok(96));
    assert_eq!(find(&made, 32, b".."), Ok(64));
    assert_eq!(find(&made, 64, b"l"), Ok(160));
    assert_eq!(find(&made, 192, b"f"), Ok(96));
    assert_eq!(find(&made, 192, b".."), at(30, 0));
    assert_eq!(find(&made, 160, b"f"), at(31, 0));
    assert_eq!(find(&made, 224, b"f"), at(31, 0));
}

#[test]
fn content_in_a_tree() {
    let made = tree();
    assert_eq!(content(&made, 96), b"twenty-one characters");
    assert_eq!(content(&made, 96).as_ptr(), made[128..].as_ptr());
    assert_eq!(content_length(&made, 96), Ok(21));
    for other in [0, 32, 64, 160, 192, 224, 128] {
        assert_eq!(content_length(&made, other), at(31, 0));
        assert!(content(&made, other).is_empty());
    }
}

#[test]
fn an_entry_in_a_tree() {
    let seen = entry(&tree(), 64).unwrap();
    assert_eq!(
        (seen.file_type, seen.executable, seen.info),
        (FileType::Directory, true, 32)
    );
    assert_eq!((seen.size, seen.next, seen.name_length), (0, 96, 2));
}

#[test]
fn a_damaged_tree_is_refused_whatever_is_asked() {
    let mut made = tree();
    made[40] ^= 1;
    assert_eq!(find(&made, 7, b""), at(24, 0));
    assert_eq!(content_length(&made, 96), at(24, 0));
    assert!(content(&made, 96).is_empty());
}

#[test]
fn the_first_of_two_equal_names_is_found() {
    let made = image(96, &[(32, 64 | 7, 0, 0, b"a"), (64, 6, 0, 0, b"a")]);
    assert_eq!(find(&made, 0, b"a"), Ok(32));
}
