//! Replay of traces, as the rules give it.

use std::num::NonZeroU32;

use reference::tfs::{create, format, free_bytes, read, write, Transferred};
use reference::trace::{replay, write_all, Record, Replayed};
use reference::Refusal;

fn refused<T>(number: u32) -> Result<T, NonZeroU32> {
    Err(NonZeroU32::new(number).expect("a refusal"))
}

/// A volume with a file "A" of 1,000 bytes that begins with "abc".
fn volume() -> Vec<u8> {
    let mut image = vec![0x5A; 20 * 512];
    format(&mut image, b"PUMP").unwrap();
    create(&mut image, b"A", 1_000).unwrap();
    write(&mut image, b"A", 0, b"abc").unwrap();
    image
}

fn create_b(expected: Result<(), NonZeroU32>) -> Record<'static> {
    Record::Create {
        name: b"B",
        size: 513,
        expected,
    }
}

fn read_a(offset: u32, length: u32, expected: Result<&[u8], NonZeroU32>) -> Record<'_> {
    Record::Read {
        name: b"A",
        offset,
        length,
        expected,
    }
}

fn write_a(bytes: &[u8], expected: Result<u32, NonZeroU32>) -> Record<'_> {
    Record::Write {
        name: b"A",
        offset: 998,
        bytes,
        expected,
    }
}

fn remove_a(expected: Result<(), NonZeroU32>) -> Record<'static> {
    Record::Remove {
        name: b"A",
        expected,
    }
}

fn free(number: u32) -> Record<'static> {
    Record::FreeBytes {
        expected: Ok(number),
    }
}

/// Replays records and gives the image after it.
fn replayed(records: &[Record<'_>]) -> (Replayed, Vec<u8>) {
    let mut image = volume();
    let trace = write_all(records).unwrap();
    (replay(&mut image, &trace).unwrap(), image)
}

#[test]
fn a_session_is_replayed_wholly() {
    let records = [
        free(14 * 512),
        create_b(Ok(())),
        create_b(refused(10)),
        free(11 * 512),
        write_a(b"xyz", Ok(2)),
        read_a(996, 100, Ok(b"\0\0xy")),
        read_a(1_001, 0, refused(15)),
        remove_a(Ok(())),
        remove_a(refused(13)),
        read_a(0, 0, refused(13)),
    ];
    let (ended, image) = replayed(&records);
    assert_eq!(ended, Replayed::All(10));
    assert_eq!(free_bytes(&image), Ok(14 * 512));
    let whole = Transferred {
        count: 513,
        blocks: 2,
    };
    assert_eq!(read(&image, b"B", 0, &mut [0; 600]), Ok(whole));
    assert_eq!(replayed(&[]), (Replayed::All(0), volume()));
}

#[test]
fn a_differing_request_has_its_effect_and_stops() {
    let mut after = volume();
    create(&mut after, b"B", 513).unwrap();
    let records = [free(14 * 512), create_b(refused(12)), remove_a(Ok(()))];
    assert_eq!(replayed(&records), (Replayed::Differs(2), after));

    let mut after = volume();
    write(&mut after, b"A", 998, b"xyz").unwrap();
    for count in [0, 1, 3, u32::MAX] {
        let ended = replayed(&[write_a(b"xyz", Ok(count))]);
        assert_eq!(ended, (Replayed::Differs(1), after.clone()));
    }
    let ended = replayed(&[write_a(b"xyz", refused(13)), free(0)]);
    assert_eq!(ended, (Replayed::Differs(1), after));
}

#[test]
fn another_refusal_differs() {
    for number in [1, 8, 13, 16, u32::MAX] {
        let ended = replayed(&[
            read_a(0, 0, Ok(b"")),
            create_b(Ok(())),
            create_b(refused(number)),
        ]);
        assert_eq!(ended.0, Replayed::Differs(3));
    }
    let granted_instead = replayed(&[read_a(1_001, 5, Ok(b""))]);
    assert_eq!(granted_instead, (Replayed::Differs(1), volume()));
}

#[test]
fn bytes_read_are_compared_whole() {
    for wrong in [
        &b""[..],
        b"ab",
        b"abc",
        b"abcd",
        b"abc\0\0",
        b"Abc\0",
        b"abc\x01",
    ] {
        let ended = replayed(&[read_a(0, 4, Ok(wrong))]);
        assert_eq!(ended, (Replayed::Differs(1), volume()), "{wrong:?}");
    }
    assert_eq!(replayed(&[read_a(0, 4, Ok(b"abc\0"))]).0, Replayed::All(1));
}

#[test]
fn a_buffer_may_have_any_length() {
    let mut content = vec![0; 1_000];
    content[..3].copy_from_slice(b"abc");
    for length in [1_000, 1_001, 65_025, u32::MAX] {
        let whole = replayed(&[
            read_a(0, length, Ok(&content)),
            read_a(1_000, length, Ok(b"")),
        ]);
        assert_eq!(whole.0, Replayed::All(2));
        let longer = [&content[..], b"\0"].concat();
        let ended = replayed(&[read_a(0, length, Ok(&longer))]);
        assert_eq!(ended.0, Replayed::Differs(1));
    }
    assert_eq!(
        replayed(&[read_a(0, 999, Ok(&content))]).0,
        Replayed::Differs(1)
    );
}

#[test]
fn names_that_no_file_may_have_are_refused_8() {
    for name in [&b""[..], b"\0", b"A\0", b"sixteen letters.", &[b'x'; 300]] {
        let record = Record::Remove {
            name,
            expected: refused(8),
        };
        assert_eq!(replayed(&[record]), (Replayed::All(1), volume()));
    }
}

#[test]
fn a_malformed_record_has_no_effect_and_earlier_ones_have() {
    let before = write_all(&[create_b(Ok(()))]).unwrap();
    let mut after = volume();
    create(&mut after, b"B", 513).unwrap();
    let removing = write_all(&[remove_a(Ok(()))]).unwrap();
    for length in 1..removing.len() {
        let mut image = volume();
        let trace = [&before, &removing[..length]].concat();
        assert_eq!(replay(&mut image, &trace), Ok(Replayed::Malformed(2)));
        assert_eq!(image, after);
    }
    // A malformed record behind a differing one is not arrived at.
    let mut image = volume();
    let trace = [&before[..], b"\x05\x07\x06"].concat();
    assert_eq!(replay(&mut image, &trace), Ok(Replayed::Differs(2)));
}

#[test]
fn an_inconsistent_volume_is_refused_first() {
    let traces = [
        write_all(&[]).unwrap(),
        write_all(&[free(0)]).unwrap(),
        vec![6],
    ];
    for trace in traces {
        let mut image = volume();
        image[1024 + 20 + 4] = b'B';
        let before = image.clone();
        assert_eq!(replay(&mut image, &trace), Err(Refusal::at(4, 1)));
        assert_eq!(image, before);
        assert_eq!(replay(&mut [], &trace), Err(Refusal::plain(1)));
    }
}
