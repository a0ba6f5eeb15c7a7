//! Changes made store by store through the C interface, and cut after every number of stores.

mod sought;

use compare::sides::{proved, reference};
use compare::{options, run, Answer, Lents, Limits};
use generate::cuts::{Change, Series, Store};
use generate::tfs::{any_volume, volume, Shape, Volume};
use generate::timing::{timing_volume, values_for};
use generate::Random;
use proved::Refusal;
use reference::request::{Arguments, Request};
use reference::timing::Timing;
use sought::compared;

/// The k-th store of a change, into a buffer.
fn store(change: &Change, image: &[u8], k: usize, buffer: &mut [u8]) -> Result<u32, Refusal> {
    match change {
        Change::Create(name, size) => proved::tfs::create_store(image, name, *size, k, buffer),
        Change::Remove(name) => proved::tfs::remove_store(image, name, k, buffer),
        Change::Write(name, offset, bytes) => {
            proved::tfs::write_store(image, name, *offset, bytes, k, buffer)
        }
        Change::Store(timing) => {
            let Timing {
                board,
                maker,
                values,
            } = timing;
            proved::timing::store_block(image, *board, *maker, values, k, buffer)
        }
        Change::OpenLid => proved::timing::open_lid_block(image, k, buffer),
    }
}

/// Makes a whole change.
fn make(change: &Change, image: &mut [u8]) -> Result<(), Refusal> {
    match change {
        Change::Create(name, size) => proved::tfs::create(image, name, *size).map(drop),
        Change::Remove(name) => proved::tfs::remove(image, name),
        Change::Write(name, offset, bytes) => {
            proved::tfs::write(image, name, *offset, bytes).map(drop)
        }
        Change::Store(timing) => {
            let Timing {
                board,
                maker,
                values,
            } = timing;
            proved::timing::store(image, *board, *maker, values)
        }
        Change::OpenLid => proved::timing::open_lid(image),
    }
}

/// The series of a change, by the proved requests alone.
fn series(change: Change, old: &[u8]) -> Series {
    let mut stores: Vec<Store> = Vec::new();
    let end = loop {
        let mut block = vec![0xEE; 600];
        match store(&change, old, stores.len() + 1, &mut block) {
            Ok(number) => {
                assert!(block[512..].iter().all(|byte| *byte == 0xEE));
                stores.push((number, block[..512].to_vec()));
            }
            Err(refusal) => break refusal,
        }
    };
    assert_eq!((end.number, end.place), (32, 0));
    let mut new = old.to_vec();
    assert_eq!(make(&change, &mut new), Ok(()));
    Series {
        change,
        old: old.to_vec(),
        new,
        stores,
    }
}

fn check(image: &[u8]) -> Option<reference::Refusal> {
    let refusal = proved::tfs::check(image).err()?;
    Some(reference::Refusal::at(refusal.number, refusal.place))
}

/// Cuts a series after every number of stores; gives how many cuts that are.
fn cut_everywhere(series: &Series) -> usize {
    assert_eq!(series.is_whole(), Ok(()));
    for count in 0..=series.stores.len() {
        let cut = series.cut(count);
        assert_eq!(series.holds(count, &cut, check(&cut)), Ok(()));
        let mut mended = cut.clone();
        assert_eq!(proved::tfs::mend(&mut mended), Ok(()));
        assert_eq!(series.mends(&cut, &mended, check(&mended)), Ok(()));
        let once = mended.clone();
        assert_eq!(proved::tfs::mend(&mut mended), Ok(()));
        assert!(mended == once);
        boot(series, count, &mended);
    }
    series.stores.len() + 1
}

/// Boots a volume that was cut after so many stores and mended.
fn boot(series: &Series, count: usize, mended: &[u8]) {
    for (board, maker) in series.boot_numbers() {
        let booted = proved::timing::boot(mended, board, maker);
        let values = booted.answer.is_ok().then_some(booted.values);
        let numbers = (board, maker);
        match series.change {
            Change::Store(_) | Change::OpenLid => {
                let kept = series.boots(count, numbers, values);
                assert_eq!(kept, Ok(()));
            }
            _ => assert_eq!(values, values_for(mended, board, maker)),
        }
    }
}

fn some_volume(random: &mut Random) -> Volume {
    match random.below(20) {
        0 => volume(random, Shape::Largest, 140),
        1 => volume(random, Shape::Empty, 132),
        _ => any_volume(random, 140),
    }
}

#[test]
fn every_cut_keeps_what_is_promised() {
    let mut random = Random::new(71);
    let mut cuts = [0; 5];
    for round in 0..7_000 {
        let kind = round % 5;
        let made = match kind {
            0..=2 => some_volume(&mut random),
            _ => timing_volume(&mut random, 140),
        };
        if let Some(change) = Change::draw(&mut random, &made, kind) {
            cuts[kind] += cut_everywhere(&series(change, &made.image));
        }
    }
    assert!(cuts.iter().all(|count| *count > 1_000), "{cuts:?}");
}

#[test]
fn large_volumes_are_cut_too() {
    let mut random = Random::new(72);
    for kind in [0, 0, 1, 1, 2, 2, 3, 3] {
        let made = volume(&mut random, Shape::Scattered, 4_096);
        let change = Change::draw(&mut random, &made, kind).expect("a change");
        cut_everywhere(&series(change, &made.image));
    }
}

#[test]
fn the_comparison_counts_its_cuts() {
    let (tally, found) = compared("--seed 5 --cases 30000 --only tfs", proved);
    assert!(found.is_none(), "{found:?}");
    assert!((0..5).all(|kind| tally.cuts(kind) > 100));
    let all: u64 = (0..5).map(|kind| tally.cuts(kind)).sum();
    assert!(tally.to_string().contains(&format!("; cuts: {all} (")));
}

/// Both sides wrong in the same way: no difference tells it, but a promise does.
#[test]
fn a_broken_promise_is_told_where_both_sides_agree() {
    fn map_first(request: Request, arguments: &Arguments, lents: &mut Lents) -> Answer {
        let k = match (request, arguments.k) {
            (Request::TfsRemoveStore, k @ 1..=2) => 3 - k,
            (_, k) => k,
        };
        let arguments = Arguments {
            k,
            ..arguments.clone()
        };
        reference(request, &arguments, lents)
    }
    let sought = |words: &str| {
        let words = format!("--seed 1 --only tfs {words}");
        let words = words.split(' ').map(str::to_owned);
        let limits: Limits = options::parse(words).expect("options");
        run(limits, [map_first, map_first]).1
    };
    let found = sought("--cases 40000").expect("a broken promise");
    assert!(found.difference.broken.is_some());
    let told = found.difference.to_string();
    assert!(told.contains("against a promise: "));
    let within = |requests| sought(&format!("--image {} --cases {requests}", found.image));
    assert!(within(found.request).is_some() && within(found.request - 1).is_none());
}
