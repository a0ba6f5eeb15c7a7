//! Times of replays, and of records read and written.

use std::hint::black_box;

use reference::tfs::{self, LARGEST_FILE, MOST_BLOCKS};
use reference::trace::{self, write_all, Draft, Record};

use crate::race::Race;
use crate::table::{Table, BOTH};
use crate::volumes::{empty, plain, with_files};

/// A session that gives back what it takes, so that it can be replayed again and again.
struct Session {
    title: &'static str,
    trace: Vec<u8>,
}

/// A create, a write, a read and a remove of a new file of 1,000 bytes, and free bytes; so often.
fn changing(image: &[u8], times: usize) -> Session {
    let (name, bytes) = (&b"NEW"[..], &[0x5A; 64][..]);
    let free = tfs::free_bytes(image).expect("free bytes");
    let round = [
        Record::Create {
            name,
            size: 1_000,
            expected: Ok(()),
        },
        Record::Write {
            name,
            offset: 100,
            bytes,
            expected: Ok(64),
        },
        Record::Read {
            name,
            offset: 100,
            length: 64,
            expected: Ok(bytes),
        },
        Record::Remove {
            name,
            expected: Ok(()),
        },
        Record::FreeBytes { expected: Ok(free) },
    ];
    Session {
        title: "create, write, read, remove, free bytes",
        trace: write_all(&round.repeat(times)).expect("a trace"),
    }
}

/// A write and a read of some bytes of the first file; so often.
fn moving(title: &'static str, length: usize, times: usize) -> Session {
    let (name, bytes) = (&b"F0"[..], vec![0x5A; length]);
    let round = [
        Record::Write {
            name,
            offset: 0,
            bytes: &bytes,
            expected: Ok(length as u32),
        },
        Record::Read {
            name,
            offset: 0,
            length: length as u32,
            expected: Ok(&bytes),
        },
    ];
    Session {
        title,
        trace: write_all(&round.repeat(times)).expect("a trace"),
    }
}

/// Replays of sessions, beside those of the reference and the same requests one by one.
pub fn replays(rounds: usize) -> Vec<Table> {
    let lanes = ["proved", "reference", "one by one"];
    let mut table = Table::new("Traces: replay on a volume of 2 MiB", &lanes);
    let [_, (_, typical), (_, full)] = plain();
    let short = "write and read 64 bytes";
    let long = "write and read 65,024 bytes";
    let largest = LARGEST_FILE as usize;
    let one_file = with_files(MOST_BLOCKS, &[LARGEST_FILE]);
    let bare = empty(MOST_BLOCKS);
    let rows = [
        ("empty", &bare, changing(&bare, 1)),
        ("empty", &bare, changing(&bare, 20)),
        ("8 files", &typical, changing(&typical, 1)),
        ("8 files", &typical, changing(&typical, 20)),
        ("8 files", &typical, moving(short, 64, 50)),
        ("25 largest files", &full, moving(short, 64, 1)),
        ("25 largest files", &full, moving(short, 64, 50)),
        ("one file", &one_file, moving(long, largest, 5)),
    ];
    for (volume, image, session) in rows {
        let times = replay(rounds, image, &session.trace);
        let records = trace::read_all(&session.trace).expect("a trace").len();
        let title = format!("{}, {volume}: {records} records", session.title);
        table.row(&title, &times);
    }
    vec![table]
}

fn replay(rounds: usize, image: &[u8], trace: &[u8]) -> Vec<f64> {
    let records = trace::read_all(trace).expect("a trace");
    let all = records.len();
    let mut images = vec![image.to_vec(); 3];
    let [ours, theirs, single] = &mut images[..] else {
        unreachable!("three images");
    };
    let mut buffer = vec![0; LARGEST_FILE as usize];
    Race::new(rounds)
        .lane(|| {
            let ended = proved::trace::replay(black_box(ours), black_box(trace));
            assert_eq!(ended, Ok(proved::trace::Replayed::All(all as u64)));
        })
        .lane(|| {
            let ended = trace::replay(black_box(theirs), black_box(trace));
            assert_eq!(ended, Ok(trace::Replayed::All(all)));
        })
        .lane(|| {
            for record in &records {
                request(black_box(single), black_box(record), &mut buffer);
            }
        })
        .run()
}

/// Makes the request of a record by itself.
fn request(image: &mut [u8], record: &Record<'_>, buffer: &mut [u8]) {
    use proved::tfs;
    match *record {
        Record::Create { name, size, .. } => drop(tfs::create(image, name, size).expect("create")),
        Record::Remove { name, .. } => tfs::remove(image, name).expect("remove"),
        Record::Read {
            name,
            offset,
            length,
            ..
        } => {
            let buffer = &mut buffer[..length as usize];
            black_box(tfs::read(image, name, offset, buffer).expect("read"));
        }
        Record::Write {
            name,
            offset,
            bytes,
            ..
        } => drop(black_box(
            tfs::write(image, name, offset, bytes).expect("write"),
        )),
        Record::FreeBytes { .. } => {
            black_box(tfs::free_bytes(image).expect("free bytes"));
        }
    }
}

/// Records by themselves.
pub fn records(rounds: usize) -> Vec<Table> {
    let mut table = Table::new("Traces: a record read and written", &BOTH);
    let bytes = vec![0x5A; LARGEST_FILE as usize];
    let write = |length: usize| Record::Write {
        name: b"TIMING",
        offset: u32::MAX,
        bytes: &bytes[..length],
        expected: Ok(length as u32),
    };
    let rows = [
        (
            "free bytes",
            Record::FreeBytes {
                expected: Ok(2_095_616),
            },
        ),
        (
            "create",
            Record::Create {
                name: b"TIMING",
                size: 1_000,
                expected: Ok(()),
            },
        ),
        ("write of 64 bytes", write(64)),
        ("write of 65,024 bytes", write(LARGEST_FILE as usize)),
    ];
    for (title, record) in rows {
        let (read, written) = (read(rounds, &record), written(rounds, &record));
        table.row(&format!("read, {title}"), &read);
        table.row(&format!("written, {title}"), &written);
    }
    vec![table]
}

fn read(rounds: usize, record: &Record<'_>) -> Vec<f64> {
    let trace = write_all(&[*record]).expect("a trace");
    Race::new(rounds)
        .lane(|| {
            let record = proved::c::trace::read(black_box(&trace), 0);
            assert_ne!(black_box(&record).entry.kind, 0);
            record.next
        })
        .lane(|| {
            let (record, next) = trace::read(black_box(&trace), 0).expect("a record");
            black_box(&record);
            next
        })
        .run()
}

fn written(rounds: usize, record: &Record<'_>) -> Vec<f64> {
    let draft = Draft::from(*record);
    let length = write_all(&[*record]).expect("a trace").len();
    let ours = proved::trace::Record {
        entry: proved::trace::Entry {
            kind: draft.entry.kind,
            size: draft.entry.size,
            offset: draft.entry.offset,
            length: draft.entry.length,
            refusal: draft.entry.refusal,
            value: draft.entry.value,
        },
        name: draft.name,
        bytes: draft.bytes,
    };
    let (mut out, mut theirs) = (vec![0; length], vec![0; length]);
    Race::new(rounds)
        .lane(|| proved::trace::write(black_box(&mut out), black_box(&ours)).expect("written"))
        .lane(|| {
            black_box(&draft)
                .write(black_box(&mut theirs))
                .expect("written")
        })
        .run()
}
