//! Times of the requests on the timing file.

use std::hint::black_box;

use reference::tfs::BLOCK_SIZE;
use reference::timing::{self, Timing};

use crate::less_check::{times, Ask, Tables, Way};
use crate::table::{Table, BOTH};
use crate::volumes::small;

/// The requests of a program, all granted; a boot gives one of its values.
#[derive(Clone, Copy)]
struct Program {
    name: &'static str,
    store: fn(&mut [u8], &Timing),
    open_lid: fn(&mut [u8]),
    boot: fn(&[u8], &Timing) -> u16,
    store_block: fn(&[u8], &Timing, usize, &mut [u8]) -> u32,
    open_lid_block: fn(&[u8], usize, &mut [u8]) -> u32,
    check: fn(&[u8]),
}

/// What is stored and booted from.
const TRAINED: Timing = Timing {
    board: 4_711,
    maker: 44,
    values: [1_400; 28],
};

fn proved_program() -> Program {
    Program {
        name: "proved",
        store: |image, given| {
            let stored = proved::timing::store(image, given.board, given.maker, &given.values);
            stored.expect("store");
        },
        open_lid: |image| proved::timing::open_lid(image).expect("opening"),
        boot: |image, given| {
            let booted = proved::timing::boot(image, given.board, given.maker);
            booted.answer.expect("boot");
            booted.values[27]
        },
        store_block: |image, given, k, block| {
            let Timing {
                board,
                maker,
                values,
            } = given;
            let stored = proved::timing::store_block(image, *board, *maker, values, k, block);
            stored.expect("block of a store")
        },
        open_lid_block: |image, k, block| {
            let opened = proved::timing::open_lid_block(image, k, block);
            opened.expect("block of an opening")
        },
        check: |image| proved::tfs::check(image).expect("check"),
    }
}

fn reference_program() -> Program {
    Program {
        name: "reference",
        store: |image, given| timing::store(image, given).expect("store"),
        open_lid: |image| timing::open_lid(image).expect("opening"),
        boot: |image, given| {
            let booted = timing::boot(image, given.board, given.maker);
            booted.answer.expect("boot");
            booted.values[27]
        },
        store_block: |image, given, k, block| {
            timing::store_block(image, given, k, block).expect("block of a store")
        },
        open_lid_block: |image, k, block| {
            timing::open_lid_block(image, k, block).expect("block of an opening")
        },
        check: |image| reference::tfs::check(image).expect("check"),
    }
}

fn programs() -> [Program; 2] {
    [proved_program(), reference_program()]
}

/// The volume, without the timing file or with it.
fn volume(stored: bool) -> Vec<u8> {
    let mut image = small();
    if stored {
        timing::store(&mut image, &TRAINED).expect("store");
    }
    image
}

/// Makes the request that is timed out of a program.
type Request = fn(Program) -> Box<Ask>;

fn check(program: Program) -> Box<Ask> {
    Box::new(move |image, _| {
        (program.check)(image);
        0
    })
}

fn boot(program: Program) -> Box<Ask> {
    Box::new(move |image, _| (program.boot)(image, black_box(&TRAINED)).into())
}

fn store(program: Program) -> Box<Ask> {
    Box::new(move |image, _| {
        (program.store)(image, black_box(&TRAINED));
        image[BLOCK_SIZE + 12].into()
    })
}

/// A store after the map and the directory were set back to those without the file.
fn create(program: Program) -> Box<Ask> {
    let absent = small()[BLOCK_SIZE..3 * BLOCK_SIZE].to_vec();
    let mut store = store(program);
    Box::new(move |image, buffer| {
        image[BLOCK_SIZE..3 * BLOCK_SIZE].copy_from_slice(black_box(&absent));
        store(image, buffer)
    })
}

fn open_lid(program: Program) -> Box<Ask> {
    Box::new(move |image, _| {
        (program.open_lid)(image);
        image[BLOCK_SIZE + 12].into()
    })
}

/// The k-th block of a store.
fn store_block(program: Program, k: usize) -> Box<Ask> {
    Box::new(move |image, buffer| {
        let block = &mut buffer[..BLOCK_SIZE];
        let number = (program.store_block)(image, black_box(&TRAINED), k, block);
        number + u32::from(block[7])
    })
}

fn only_block(program: Program) -> Box<Ask> {
    store_block(program, 1)
}

fn fifth_block(program: Program) -> Box<Ask> {
    store_block(program, 5)
}

fn open_lid_block(program: Program) -> Box<Ask> {
    Box::new(move |image, buffer| {
        let block = &mut buffer[..BLOCK_SIZE];
        let number = (program.open_lid_block)(image, 1, block);
        number + u32::from(block[7])
    })
}

/// The requests, beside the check alone.
pub fn requests(rounds: usize) -> Vec<Table> {
    let rows: [(&str, bool, Request); 8] = [
        ("the check alone", true, check),
        ("boot", true, boot),
        ("store, the file stands", true, store),
        ("store, the file is created", false, create),
        ("open lid", true, open_lid),
        ("block of a store, the file stands", true, only_block),
        (
            "fifth block of a store, the file is created",
            false,
            fifth_block,
        ),
        ("block of open lid", true, open_lid_block),
    ];
    let title = "Timing file: a volume of 64 KiB with seven other files";
    let mut tables = Tables::new(title, &BOTH);
    for (title, stored, request) in rows {
        let mut ways = programs().map(|program| Way {
            name: program.name,
            request: request(program),
            check: Some(program.check),
        });
        let times = times(rounds, &mut ways, |_| volume(stored));
        tables.row(title, &times);
    }
    tables.done()
}
