//! Generated traces do what they are said to do, and damage is never taken for a record.

use std::collections::HashSet;

use generate::tfs::{any_volume, Volume};
use generate::traces::{
    any_trace, change_answer, damage_trace, records, session, AnswerChange, Plan, TraceFault,
};
use generate::Random;
use reference::trace::{read, read_all, replay, write, write_all, Draft, Replayed};

/// Volumes with sessions on them.
fn sessions(seed: u64, count: usize) -> impl Iterator<Item = (Random, Volume, Vec<u8>)> {
    let mut random = Random::new(seed);
    std::iter::repeat_with(move || {
        let made = any_volume(&mut random, 40);
        let plan = Plan::small(&mut random);
        let trace = session(&mut random, &made, plan);
        (random.clone(), made, trace)
    })
    .take(count)
}

/// Replays a trace on a copy of a volume and gives the image after it.
fn replayed(made: &Volume, trace: &[u8]) -> (Replayed, Vec<u8>) {
    let mut image = made.image.clone();
    let ended = replay(&mut image, trace).expect("a consistent volume");
    (ended, image)
}

#[test]
fn sessions_are_replayed_wholly() {
    for (_, made, trace) in sessions(1, 400) {
        let count = records(&trace).len();
        assert!(count > 0);
        assert_eq!(replayed(&made, &trace).0, Replayed::All(count));
    }
}

#[test]
fn sessions_have_every_kind_and_answer() {
    let mut met = HashSet::new();
    for (_, _, trace) in sessions(2, 600) {
        for record in read_all(&trace).unwrap() {
            let entry = Draft::from(record).entry;
            met.insert((entry.kind, entry.refusal));
        }
    }
    let owed = [
        (1, vec![0, 8, 9, 10, 11, 12]),
        (2, vec![0, 8, 13]),
        (3, vec![0, 8, 13, 15]),
        (4, vec![0, 8, 13, 15]),
        (5, vec![0]),
    ];
    let owed = owed.map(|(kind, refusals)| refusals.into_iter().map(move |number| (kind, number)));
    assert_eq!(met, owed.into_iter().flatten().collect());
}

#[test]
fn a_changed_answer_differs_and_its_request_is_made() {
    let mut met = HashSet::new();
    for (mut random, made, trace) in sessions(3, 300) {
        let ends = records(&trace);
        for change in AnswerChange::ALL {
            let Some((changed, number)) = change_answer(&mut random, &trace, change) else {
                continue;
            };
            let (ended, image) = replayed(&made, &changed);
            assert_eq!(ended, Replayed::Differs(number), "{change:?}");
            let (_, as_far) = replayed(&made, &trace[..ends[number - 1].end]);
            assert!(image == as_far, "{change:?}");
            met.insert(change);
        }
    }
    assert_eq!(met.len(), AnswerChange::ALL.len());
}

#[test]
fn a_malformed_record_stops_without_effect() {
    for (mut random, made, trace) in sessions(4, 300) {
        let ends = records(&trace);
        for way in TraceFault::ALL {
            let Some((damaged, number)) = damage_trace(&mut random, &trace, way) else {
                continue;
            };
            let (ended, image) = replayed(&made, &damaged);
            assert_eq!(ended, Replayed::Malformed(number), "{way:?} {damaged:x?}");
            let before = number.checked_sub(2).map_or(0, |last| ends[last].end);
            assert!(image == replayed(&made, &trace[..before]).1, "{way:?}");
            assert_eq!(read_all(&damaged).unwrap_err().at, before);
        }
    }
}

#[test]
fn reading_and_writing_invert_each_other() {
    for (_, _, trace) in sessions(5, 400) {
        let records = read_all(&trace).expect("a trace");
        assert_eq!(write_all(&records).as_ref(), Ok(&trace));
        for (record, part) in records.iter().zip(generate::traces::records(&trace)) {
            let mut out = vec![0x77; part.len() + 2];
            assert_eq!(write(record, &mut out), Ok(part.len()));
            assert_eq!(read(&out, 0), Some((*record, part.len())));
            assert_eq!(out, [&trace[part], &[0x77; 2]].concat());
        }
    }
}

#[test]
fn drawn_records_come_back() {
    let mut random = Random::new(6);
    let (name, bytes) = (random.bytes(300), random.bytes(20_000));
    for _ in 0..20_000 {
        let mut number = || u64::from(random.word() >> random.below(33).min(31));
        let mut draft = Draft::default();
        let entry = &mut draft.entry;
        entry.kind = 1 + number() % 5;
        entry.size = number();
        entry.offset = number();
        entry.length = number();
        entry.value = number();
        entry.refusal = number() % 2 * number();
        draft.name = &name[..number() as usize % 301];
        draft.bytes = &bytes[..number() as usize % 20_001];
        let record = draft.record().expect("numbers below 2^32");
        let trace = write_all(&[record, record]).unwrap();
        assert_eq!(read_all(&trace), Ok(vec![record; 2]));
    }
}

/// Reads and replays a damaged trace: what reads whole is written to the same bytes.
fn withstand(made: &Volume, damaged: &[u8]) {
    let read = read_all(damaged);
    if let Ok(records) = &read {
        assert_eq!(write_all(records).as_deref(), Ok(damaged));
    }
    let (ended, _) = replayed(made, damaged);
    match (read, ended) {
        (Ok(records), Replayed::All(count)) => assert_eq!(records.len(), count),
        (Ok(records), Replayed::Differs(number)) => assert!(number <= records.len()),
        (Err(malformed), Replayed::Differs(number)) => assert!(number < malformed.number),
        (Err(malformed), ended) => assert_eq!(ended, Replayed::Malformed(malformed.number)),
        (Ok(_), Replayed::Malformed(_)) => panic!("malformed where it reads whole: {damaged:x?}"),
    }
}

#[test]
fn traces_damaged_at_every_byte() {
    let short = |(_, _, trace): &(Random, Volume, Vec<u8>)| trace.len() < 150;
    for (mut random, made, trace) in sessions(7, 60).filter(short) {
        for at in 0..=trace.len() {
            withstand(&made, &trace[..at]);
            let any = random.word() as u8;
            for byte in [0, 1, 0x7F, 0x80, 0xFF, any] {
                withstand(&made, &[&trace[..at], &[byte], &trace[at..]].concat());
            }
            let Some(old) = trace.get(at) else {
                continue;
            };
            withstand(&made, &[&trace[..at], &trace[at + 1..]].concat());
            for bit in 0..8 {
                let byte = old ^ (1 << bit);
                withstand(&made, &[&trace[..at], &[byte], &trace[at + 1..]].concat());
            }
        }
    }
}

#[test]
fn every_byte_of_a_short_trace_by_every_other() {
    let trace = b"\x01\x01B\x90\x03\0\x03\x01B\xFF\x02\x05\0\x05\0\0\0\0\0\x05\0\x80\x04";
    let mut random = Random::new(8);
    let made = any_volume(&mut random, 12);
    for at in 0..trace.len() {
        for byte in 0..=255 {
            let mut damaged = trace.to_vec();
            damaged[at] = byte;
            withstand(&made, &damaged);
        }
    }
}

#[test]
fn any_trace_ends_in_every_way() {
    let mut random = Random::new(9);
    let mut met = [0; 3];
    for _ in 0..400 {
        let made = any_volume(&mut random, 24);
        let plan = Plan::small(&mut random);
        let trace = any_trace(&mut random, &made, plan);
        let outcome = match replayed(&made, &trace).0 {
            Replayed::All(_) => 0,
            Replayed::Malformed(_) => 1,
            Replayed::Differs(_) => 2,
        };
        met[outcome] += 1;
    }
    assert!(met.iter().all(|count| *count > 60), "{met:?}");
}
