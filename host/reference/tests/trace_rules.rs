//! The form of traces, as the rules give it.

use std::num::NonZeroU32;

use reference::trace::{
    read, read_all, write, write_all, Draft, Entry, Expected, Malformed, Record,
};
use reference::Refusal;

fn refused<T>(number: u32) -> Expected<T> {
    Err(NonZeroU32::new(number).expect("a refusal"))
}

fn create(size: u32, expected: Expected<()>) -> Record<'static> {
    Record::Create {
        name: b"AB",
        size,
        expected,
    }
}

fn remove(expected: Expected<()>) -> Record<'static> {
    Record::Remove {
        name: b"\0",
        expected,
    }
}

fn reading(length: u32, expected: Expected<&[u8]>) -> Record<'_> {
    Record::Read {
        name: b"A",
        offset: 300,
        length,
        expected,
    }
}

fn writing(expected: Expected<u32>) -> Record<'static> {
    Record::Write {
        name: b"",
        offset: 0,
        bytes: b"\0\x80",
        expected,
    }
}

fn free(expected: Expected<u32>) -> Record<'static> {
    Record::FreeBytes { expected }
}

/// Records of every kind, granted and refused, each with its bytes.
fn samples() -> Vec<(Record<'static>, Vec<u8>)> {
    let samples: [(Record, &[u8]); 10] = [
        (create(1000, Ok(())), b"\x01\x02AB\xE8\x07\0"),
        (create(0, refused(12)), b"\x01\x02AB\0\x0C"),
        (remove(Ok(())), b"\x02\x01\0\0"),
        (remove(refused(8)), b"\x02\x01\0\x08"),
        (reading(2, Ok(b"xyz")), b"\x03\x01A\xAC\x02\x02\0\x03xyz"),
        (reading(128, refused(15)), b"\x03\x01A\xAC\x02\x80\x01\x0F"),
        (writing(Ok(2)), b"\x04\0\0\x02\0\x80\0\x02"),
        (writing(refused(200)), b"\x04\0\0\x02\0\x80\xC8\x01"),
        (free(Ok(64_000)), b"\x05\0\x80\xF4\x03"),
        (free(refused(7)), b"\x05\x07"),
    ];
    let owned = |(record, bytes): (_, &[u8])| (record, bytes.to_vec());
    samples.into_iter().map(owned).collect()
}

#[test]
fn every_kind_has_its_bytes() {
    for (record, bytes) in samples() {
        let followed = [&bytes[..], b"\x05"].concat();
        assert_eq!(read(&followed, 0), Some((record, bytes.len())));
        let mut out = vec![0xEE; bytes.len() + 3];
        assert_eq!(write(&record, &mut out), Ok(bytes.len()));
        assert_eq!(out, [&bytes[..], &[0xEE; 3]].concat());
    }
}

#[test]
fn a_trace_is_its_records_one_after_another() {
    let (records, parts): (Vec<_>, Vec<_>) = samples().into_iter().unzip();
    let trace = parts.concat();
    assert_eq!(read_all(&trace).as_ref(), Ok(&records));
    assert_eq!(write_all(&records).as_ref(), Ok(&trace));
    assert_eq!(read_all(b""), Ok(Vec::new()));
    assert_eq!(write_all(&[]), Ok(Vec::new()));
    let mut at = 0;
    for (record, part) in records.into_iter().zip(parts) {
        assert_eq!(read(&trace, at), Some((record, at + part.len())));
        at += part.len();
    }
    assert_eq!(read(&trace, at), None);
    assert_eq!(read(&trace, at + 1), None);
    assert_eq!(read(&trace, usize::MAX), None);
}

/// The record that has a number as its last field.
fn with_number(groups: &[u8]) -> Vec<u8> {
    [b"\x05\0", groups].concat()
}

#[test]
fn numbers_are_groups_of_seven_bits() {
    let numbers: [(u32, &[u8]); 12] = [
        (0, b"\0"),
        (1, b"\x01"),
        (127, b"\x7F"),
        (128, b"\x80\x01"),
        (0x3FFF, b"\xFF\x7F"),
        (0x4000, b"\x80\x80\x01"),
        (0x1F_FFFF, b"\xFF\xFF\x7F"),
        (0x20_0000, b"\x80\x80\x80\x01"),
        (0xFFF_FFFF, b"\xFF\xFF\xFF\x7F"),
        (0x1000_0000, b"\x80\x80\x80\x80\x01"),
        (0x1234_5678, b"\xF8\xAC\xD1\x91\x01"),
        (u32::MAX, b"\xFF\xFF\xFF\xFF\x0F"),
    ];
    for (number, groups) in numbers {
        let record = Record::FreeBytes {
            expected: Ok(number),
        };
        let trace = with_number(groups);
        assert_eq!(write_all(&[record]).as_ref(), Ok(&trace), "{number}");
        assert_eq!(read_all(&trace), Ok(vec![record]), "{number}");
    }
}

#[test]
fn other_forms_of_numbers_are_malformed() {
    let wrong: [&[u8]; 15] = [
        b"",
        b"\x80",
        b"\xFF\xFF\xFF\xFF",
        b"\x80\0",
        b"\x81\0",
        b"\xFF\0",
        b"\x80\x80\0",
        b"\xFF\xFF\xFF\0",
        b"\x80\x80\x80\x80\0",
        b"\x80\x80\x80\x80\x10",
        b"\xFF\xFF\xFF\xFF\x1F",
        b"\xFF\xFF\xFF\xFF\x7F",
        b"\xFF\xFF\xFF\xFF\x8F\0",
        b"\x80\x80\x80\x80\x80\x01",
        b"\xFF\xFF\xFF\xFF\xFF\x0F",
    ];
    for groups in wrong {
        assert_eq!(read(&with_number(groups), 0), None, "{groups:x?}");
    }
}

/// Each number of each sample, kinds and lengths too, in a longer form.
#[test]
fn longer_forms_are_malformed_everywhere() {
    let longer = |number: u32| {
        let mut groups = vec![number as u8 | 0x80; 1];
        let mut rest = number >> 7;
        while rest > 0 {
            groups.push(rest as u8 | 0x80);
            rest >>= 7;
        }
        groups.push(0);
        groups
    };
    use reference::trace::Field::{Bytes, Number};
    for (record, bytes) in samples() {
        let fields: Vec<_> = record.fields().collect();
        for wrong in 0..fields.len() {
            let mut trace = Vec::new();
            for (index, field) in fields.iter().enumerate() {
                let (number, behind) = match *field {
                    Number(number) => (number, &b""[..]),
                    Bytes(bytes) => (bytes.len() as u32, bytes),
                };
                let groups = longer(number);
                let shortest = &groups[..groups.len() - 1];
                match index == wrong {
                    true => trace.extend(&groups),
                    false => {
                        trace.extend(shortest);
                        *trace.last_mut().unwrap() &= 0x7F;
                    }
                }
                trace.extend(behind);
            }
            assert!(trace.len() == bytes.len() + 1);
            assert_eq!(read(&trace, 0), None, "{trace:x?}");
        }
    }
}

#[test]
fn other_kinds_are_malformed() {
    for kind in (0..=255).filter(|kind| !(1..=5).contains(kind)) {
        let trace = [&[kind], &b"\0\0\0\0\0\0\0\0"[..]].concat();
        assert_eq!(read(&trace, 0), None, "{kind}");
    }
}

#[test]
fn a_record_cut_off_is_malformed() {
    for (_, bytes) in samples() {
        for length in 0..bytes.len() {
            assert_eq!(read(&bytes[..length], 0), None, "{bytes:x?} {length}");
        }
    }
    let cut_later = b"\x05\x07\x02\x01A\0\x04";
    let malformed = Malformed { number: 3, at: 6 };
    assert_eq!(read_all(cut_later), Err(malformed));
}

#[test]
fn a_length_may_not_lead_past_the_end() {
    for length in [&b"\x02"[..], b"\x7F", b"\xFF\xFF\xFF\xFF\x0F"] {
        let trace = [b"\x02", length, b"A"].concat();
        assert_eq!(read(&trace, 0), None, "{trace:x?}");
    }
}

#[test]
fn a_short_buffer_is_refused_and_stays() {
    for (record, bytes) in samples() {
        for length in 0..bytes.len() {
            let mut out = vec![0xEE; length];
            assert_eq!(write(&record, &mut out), Err(Refusal::plain(33)));
            assert_eq!(out, vec![0xEE; length]);
        }
    }
}

const TOO_LARGE: u64 = 1 << 32;

/// A draft with every number of its kind, granted.
fn draft(kind: u64) -> Draft<'static> {
    let entry = Entry {
        kind,
        ..Entry::default()
    };
    Draft {
        entry,
        name: b"N",
        bytes: b"bytes",
    }
}

/// A draft with one of its numbers changed.
fn changed(kind: u64, refusal: u64, number: usize, value: u64) -> Draft<'static> {
    let mut draft = draft(kind);
    let entry = &mut draft.entry;
    entry.refusal = refusal;
    let numbers = [
        &mut entry.size,
        &mut entry.offset,
        &mut entry.length,
        &mut entry.value,
    ];
    *numbers.into_iter().nth(number).unwrap() = value;
    draft
}

#[test]
fn a_number_of_the_record_may_be_too_large() {
    // Which of size, offset, length and value a kind has, granted and refused.
    let has = [
        (1, [true, false, false, false]),
        (2, [false; 4]),
        (3, [false, true, true, false]),
        (4, [false, true, false, true]),
        (5, [false, false, false, true]),
    ];
    for (kind, numbers) in has {
        for refusal in [0, 13] {
            let mut plain = [0; 40];
            let length = changed(kind, refusal, 0, 0).write(&mut plain).unwrap();
            for (index, has) in numbers.into_iter().enumerate() {
                let has = has && (index < 3 || refusal == 0);
                for value in [TOO_LARGE, TOO_LARGE + 5, u64::MAX] {
                    let mut out = [0; 40];
                    let written = changed(kind, refusal, index, value).write(&mut out);
                    match has {
                        true => assert_eq!((written, out), (Err(Refusal::plain(33)), [0; 40])),
                        false => assert_eq!((written, out), (Ok(length), plain)),
                    }
                }
                let written = changed(kind, refusal, index, TOO_LARGE - 1).write(&mut [0; 40]);
                assert_eq!(written, Ok(length + if has { 4 } else { 0 }));
            }
            let wrong = changed(kind, TOO_LARGE + refusal, 0, 0);
            assert_eq!(wrong.write(&mut [0; 40]), Err(Refusal::plain(33)));
        }
    }
}

#[test]
fn a_draft_has_a_kind() {
    for kind in [0, 6, 7, 255, TOO_LARGE + 1, u64::MAX] {
        let mut out = [9; 40];
        assert_eq!(draft(kind).write(&mut out), Err(Refusal::plain(33)));
        assert_eq!(out, [9; 40]);
    }
}

#[test]
fn drafts_of_records_are_their_records() {
    for (record, _) in samples() {
        assert_eq!(Draft::from(record).record(), Some(record));
    }
}

/// Zeros that take no memory until they are used.
#[test]
fn a_length_may_be_too_large() {
    let long = vec![0; TOO_LARGE as usize];
    let wrong = [
        Draft {
            name: &long,
            ..draft(2)
        },
        Draft {
            bytes: &long,
            ..draft(3)
        },
        Draft {
            bytes: &long,
            ..draft(4)
        },
    ];
    for draft in wrong {
        assert_eq!(draft.write(&mut [0; 40]), Err(Refusal::plain(33)));
    }
    let ignored = Draft {
        bytes: &long,
        ..draft(1)
    };
    assert_eq!(ignored.write(&mut [0; 40]), Ok(5));
    let ignored = Draft {
        name: &long,
        ..draft(5)
    };
    assert_eq!(ignored.write(&mut [0; 40]), Ok(3));
}
