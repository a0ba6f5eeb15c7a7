//! Times of the k-th stores and of mends.

use reference::tfs::{BLOCK_SIZE, LARGEST_FILE, MOST_BLOCKS};

use crate::less_check::{times, Ask, Tables, Way};
use crate::table::{Table, BOTH};
use crate::volumes::with_files;

/// The requests of a program; a store gives the number of its block.
#[derive(Clone, Copy)]
struct Program {
    name: &'static str,
    create: fn(&[u8], usize, &mut [u8]) -> u32,
    remove: fn(&[u8], usize, &mut [u8]) -> u32,
    write: fn(&[u8], &[u8], usize, &mut [u8]) -> u32,
    mend: fn(&mut [u8]),
    check: fn(&[u8]),
}

/// A file of the volume, and one that is not there.
const FILE: &[u8] = b"F0";
const NEW: &[u8] = b"NEW";

/// The program whose requests a module has.
macro_rules! program {
    ($name:expr, $tfs:path) => {{
        use $tfs as tfs;
        Program {
            name: $name,
            create: |image, k, block| {
                tfs::create_store(image, NEW, LARGEST_FILE, k, block).expect("store")
            },
            remove: |image, k, block| tfs::remove_store(image, FILE, k, block).expect("store"),
            write: |image, bytes, k, block| {
                tfs::write_store(image, FILE, 0, bytes, k, block).expect("store")
            },
            mend: |image| tfs::mend(image).expect("mend"),
            check: |image| tfs::check(image).expect("check"),
        }
    }};
}

fn programs() -> [Program; 2] {
    [
        program!("proved", proved::tfs),
        program!("reference", reference::tfs),
    ]
}

/// Makes the request that is timed out of a program.
type Request = fn(Program) -> Box<Ask>;

/// Adds a row for a request of both programs, on a volume with files of these sizes.
fn row(tables: &mut Tables, rounds: usize, title: &str, sizes: &[u32], request: Request) {
    let mut ways = programs().map(|program| Way {
        name: program.name,
        request: request(program),
        check: Some(program.check),
    });
    let times = times(rounds, &mut ways, |_| with_files(MOST_BLOCKS, sizes));
    tables.row(title, &times);
}

/// The k-th store of a create of the largest size.
fn create<const K: usize>(program: Program) -> Box<Ask> {
    Box::new(move |image, buffer| (program.create)(image, K, &mut buffer[..BLOCK_SIZE]))
}

/// The k-th store of a remove.
fn remove<const K: usize>(program: Program) -> Box<Ask> {
    Box::new(move |image, buffer| (program.remove)(image, K, &mut buffer[..BLOCK_SIZE]))
}

/// The k-th store of a write of a whole file.
fn write<const K: usize>(program: Program) -> Box<Ask> {
    Box::new(move |image, buffer| {
        let (bytes, block) = buffer.split_at_mut(LARGEST_FILE as usize);
        (program.write)(image, bytes, K, block)
    })
}

/// A mend after bits of the map were set.
fn mend(program: Program, spoil: fn(&mut [u8])) -> Box<Ask> {
    Box::new(move |image, _| {
        spoil(&mut image[BLOCK_SIZE..2 * BLOCK_SIZE]);
        (program.mend)(image);
        u32::from(image[BLOCK_SIZE])
    })
}

/// The k-th stores, beside the check alone.
pub fn stores(rounds: usize) -> Vec<Table> {
    let rows: [(&str, Request); 10] = [
        ("the check alone", |program| {
            Box::new(move |image, _| {
                (program.check)(image);
                0
            })
        }),
        ("create: first content block", create::<1>),
        ("create: last content block", create::<127>),
        ("create: inode", create::<128>),
        ("create: map", create::<129>),
        ("create: directory", create::<130>),
        ("remove: directory", remove::<1>),
        ("remove: map", remove::<2>),
        ("write: first of 127 blocks", write::<1>),
        ("write: last of 127 blocks", write::<127>),
    ];
    let title = "TFS: the k-th store of files of 65,024 bytes, in a volume of 2 MiB with one file";
    let mut tables = Tables::new(title, &BOTH);
    for (title, request) in rows {
        row(&mut tables, rounds, title, &[LARGEST_FILE], request);
    }
    tables.done()
}

/// Mends, each after the bits were set again that it clears.
pub fn mends(rounds: usize) -> Vec<Table> {
    let rows: [(&str, Request); 3] = [
        ("consistent", |program| mend(program, |_| {})),
        ("one stray bit", |program| {
            mend(program, |map| map[BLOCK_SIZE - 4] |= 0x80)
        }),
        ("all bits set", |program| {
            mend(program, |map| map.fill(0xFF))
        }),
    ];
    let mut tables = Tables::new("TFS: mend of a volume of 2 MiB, by its map", &BOTH);
    for (volume, count) in [("one file", 1), ("25 largest files", 25)] {
        let sizes = vec![LARGEST_FILE; count];
        for (title, request) in rows {
            let title = format!("{title}, {volume}");
            row(&mut tables, rounds, &title, &sizes, request);
        }
    }
    tables.done()
}
