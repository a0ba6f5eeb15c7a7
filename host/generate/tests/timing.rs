//! Volumes with a timing file, and what is promised of it, with the second program alone.

mod naive;

use std::collections::BTreeMap;

use generate::cases::{tfs_arguments, trace_arguments};
use generate::cuts::{contents, Change, Series};
use generate::tfs::{volume, Shape, Volume};
use generate::timing::{
    encoded, held, is_on_file, put_file, said, some_timing, timing_arguments, timing_volume,
    turn_to_file, values_for, Promise, NAME,
};
use generate::Random;
use reference::request::{run, Arguments, Request};
use reference::tfs::{self, check, free_bytes, mend};
use reference::timing::{boot, Timing, VALUES};

/// In which way the file of a volume stands.
fn way(made: &Volume) -> &'static str {
    let file = made.files.iter().find(|file| file.name == NAME);
    let room = free_bytes(&made.image).expect("a consistent volume") / 512;
    match file.map(|file| file.size) {
        Some(64) if held(&made.image).expect("a file").board == 0 => "opened",
        Some(64) => "sound",
        Some(size) if size < 64 => "shorter",
        Some(65_024) => "of the largest size",
        Some(_) => "longer",
        None if made.files.len() == 25 && room < 2 => "no slot and no room",
        None if made.files.len() == 25 => "no slot",
        None if room < 2 => "no room",
        None if room == 2 => "exactly the room",
        None => "absent",
    }
}

#[test]
fn every_way_is_drawn_and_consistent() {
    let mut random = Random::new(71);
    let mut ways: BTreeMap<&str, usize> = BTreeMap::new();
    for _ in 0..4_000 {
        let made = timing_volume(&mut random, 140);
        assert_eq!(check(&made.image), Ok(()));
        assert_eq!(naive::tfs_fault(&made.image), None);
        let mut seen = made.clone();
        seen.look(&made.image);
        assert_eq!(seen.files, made.files);
        *ways.entry(way(&made)).or_default() += 1;
    }
    assert_eq!(ways.len(), 10, "{ways:?}");
    assert!(ways.values().all(|count| *count >= 10), "{ways:?}");
}

#[test]
fn the_file_is_written_as_the_reference_writes_it() {
    let mut random = Random::new(77);
    for _ in 0..200 {
        let timing = some_timing(&mut random, &[]);
        assert_eq!(encoded(&timing), timing.bytes());
    }
}

/// The requests of histories.
const REQUESTS: [Request; 14] = [
    Request::TimingStore,
    Request::TimingStore,
    Request::TimingOpenLid,
    Request::TimingBoot,
    Request::TimingBoot,
    Request::TimingStoreBlock,
    Request::TimingOpenLidBlock,
    Request::TfsCreate,
    Request::TfsRemove,
    Request::TfsRead,
    Request::TfsWrite,
    Request::TfsReplay,
    Request::TfsMend,
    Request::TfsList,
];

/// Draws a request; those by name are at times turned to the timing file.
fn request(random: &mut Random, made: &Volume, last: Timing) -> (Request, Arguments) {
    let request = match random.one_in(40) {
        true => Request::TfsFormat,
        false => random.pick(&REQUESTS),
    };
    let known: Vec<Timing> = said(&made.image).into_iter().chain([last]).collect();
    let mut arguments = match request {
        Request::TfsReplay => trace_arguments(random, made),
        _ if is_on_file(request) => timing_arguments(random, request, &known),
        _ => tfs_arguments(random, made, request),
    };
    if !is_on_file(request) && random.one_in(8) {
        turn_to_file(random, request, &mut arguments);
    }
    (request, arguments)
}

/// How many boots were held to each promise.
#[derive(Debug, Default)]
struct Boots {
    granted: usize,
    refused_stored: usize,
    refused_opened: usize,
}

impl Boots {
    /// Holds a boot to the promise, and to a reading of the image.
    fn hold(&mut self, promise: &Promise, image: &[u8], timing: &Timing) {
        let Timing { board, maker, .. } = *timing;
        let booted = boot(image, board, maker);
        let granted = booted.answer.is_ok();
        let kept = promise.kept((board, maker), granted, &booted.values);
        assert_eq!(kept, Ok(()), "{promise:?}");
        let owed = values_for(image, board, maker);
        assert_eq!(owed, granted.then_some(booted.values));
        match promise {
            Promise::Nothing => {}
            Promise::NoValues => self.refused_opened += 1,
            Promise::Stored(_) if granted => self.granted += 1,
            Promise::Stored(_) => self.refused_stored += 1,
        }
    }
}

#[test]
fn histories_keep_what_is_promised() {
    let mut random = Random::new(72);
    let mut boots = Boots::default();
    for _ in 0..600 {
        let mut made = timing_volume(&mut random, 60);
        let mut promise = Promise::default();
        let mut last = Timing::default();
        for _ in 0..60 {
            let (request, arguments) = request(&mut random, &made, last);
            let mut buffer = arguments.buffer.clone();
            let before = contents(&made.image);
            let answer = run(request, &arguments, &mut made.image, &mut buffer);
            if answer.is_ok() {
                promise = promise.after(request, &arguments);
                made.look(&made.image.clone());
            }
            if is_on_file(request) {
                others_stay(before, contents(&made.image));
            }
            if (request, answer.is_ok()) == (Request::TimingStore, true) {
                last = arguments.timing;
            }
            boots.hold(&promise, &made.image, &last);
            boots.hold(&promise, &made.image, &arguments.timing);
        }
    }
    let Boots {
        granted,
        refused_stored,
        refused_opened,
    } = boots;
    assert!(granted > 1_000 && refused_stored > 1_000 && refused_opened > 1_000);
}

type Contents = BTreeMap<Vec<u8>, Vec<u8>>;

/// The requests on the timing file leave all other files.
fn others_stay(mut before: Contents, mut after: Contents) {
    before.remove(NAME);
    after.remove(NAME);
    assert!(before == after);
}

#[test]
fn wrong_boots_break_a_promise() {
    let stored = Timing {
        board: 1,
        maker: 2,
        values: [3; VALUES],
    };
    let zeros = [0; VALUES];
    let right = Promise::Stored(stored);
    assert_eq!(right.kept((1, 2), true, &[3; VALUES]), Ok(()));
    assert_eq!(right.kept((1, 3), false, &zeros), Ok(()));
    assert!(right.kept((1, 2), false, &zeros).is_err());
    assert!(right.kept((1, 2), true, &zeros).is_err());
    assert!(right.kept((1, 3), true, &[3; VALUES]).is_err());
    assert!(right.kept((2, 2), true, &zeros).is_err());
    assert_eq!(Promise::NoValues.kept((1, 2), false, &zeros), Ok(()));
    assert!(Promise::NoValues.kept((1, 2), true, &zeros).is_err());
    assert!(Promise::Nothing.kept((1, 2), false, &[3; VALUES]).is_err());
}

#[test]
fn requests_on_other_names_leave_a_promise() {
    let stored = Promise::Stored(Timing::default());
    let named = |name: &[u8]| Arguments {
        name: name.to_vec(),
        buffer: name.to_vec(),
        ..Arguments::default()
    };
    let changes = [
        Request::TfsCreate,
        Request::TfsRemove,
        Request::TfsWrite,
        Request::TfsReplay,
    ];
    for request in changes {
        assert_eq!(stored.after(request, &named(b"timing")), stored);
        assert_ne!(stored.after(request, &named(NAME)), stored);
    }
    for request in [Request::TfsRead, Request::TfsMend, Request::TimingBoot] {
        assert_eq!(stored.after(request, &named(NAME)), stored);
    }
    let formatted = stored.after(Request::TfsFormat, &named(b""));
    assert_eq!(formatted, Promise::NoValues);
}

/// Cuts a series after every number of stores, mends and boots; gives how many cuts that are.
fn cut_everywhere(series: &Series) -> usize {
    assert_eq!(series.is_whole(), Ok(()));
    for count in 0..=series.stores.len() {
        let cut = series.cut(count);
        assert_eq!(series.holds(count, &cut, check(&cut).err()), Ok(()));
        let mut mended = cut.clone();
        assert_eq!(mend(&mut mended), Ok(()));
        let kept = series.mends(&cut, &mended, check(&mended).err());
        assert_eq!(kept, Ok(()));
        for (board, maker) in series.boot_numbers() {
            let booted = boot(&mended, board, maker);
            let values = booted.answer.is_ok().then_some(booted.values);
            let kept = series.boots(count, (board, maker), values);
            assert_eq!(kept, Ok(()));
        }
    }
    series.stores.len() + 1
}

#[test]
fn every_cut_keeps_what_is_promised() {
    let mut random = Random::new(73);
    let mut cuts = [0; 2];
    let mut stores = [0; 6];
    for round in 0..3_000 {
        let made = timing_volume(&mut random, 60);
        if let Some(change) = Change::draw(&mut random, &made, 3 + round % 2) {
            let series = Series::of_reference(&mut random, change, &made.image);
            cuts[round % 2] += cut_everywhere(&series);
            stores[series.stores.len()] += 1;
        }
    }
    assert!(cuts.iter().all(|count| *count > 1_000), "{cuts:?}");
    assert!(stores[1] > 500 && stores[5] > 100, "{stores:?}");
    assert_eq!(stores[0] + stores[2] + stores[3] + stores[4], 0);
}

#[test]
fn large_volumes_are_cut_too() {
    let mut random = Random::new(74);
    let mut made = volume(&mut random, Shape::Scattered, 4_096);
    for kind in [3, 3, 4] {
        let change = Change::draw(&mut random, &made, kind).expect("a change");
        let series = Series::of_reference(&mut random, change, &made.image);
        cut_everywhere(&series);
        made.look(&series.new);
        made.image = series.new;
    }
}

/// A volume with a file that holds one timing, and the series of a store of another.
fn series_of_store() -> Series {
    let mut random = Random::new(75);
    let mut made = volume(&mut random, Shape::Empty, 12);
    let (mut old, mut new) = (Timing::default(), Timing::default());
    (old.board, old.maker, old.values) = (1, 2, [3; VALUES]);
    (new.board, new.maker, new.values) = (1, 2, [4; VALUES]);
    assert!(put_file(&mut random, &mut made, NAME, 64, &encoded(&old)));
    Series::of_reference(&mut random, Change::Store(new), &made.image)
}

/// A store in two, the numbers and then the values, or one value before the others, is a mixture.
#[test]
fn a_mixture_breaks_a_promise() {
    let right = series_of_store();
    let [(number, block)] = &right.stores[..] else {
        panic!("one store");
    };
    for first in [10, 36, 62] {
        let mut mixed = block.clone();
        mixed[first..64].fill(0);
        let series = Series {
            stores: vec![(*number, mixed), (*number, block.clone())],
            ..right.clone()
        };
        assert!(series.is_whole().is_err());
        let booted = boot(&series.cut(1), 1, 2);
        assert_eq!(booted.answer, Ok(()));
        let kept = series.boots(1, (1, 2), Some(booted.values));
        assert!(kept.is_err());
    }
}

/// The content before the directory, in one store: a cut leaves no values, but the rule lists five.
#[test]
fn other_orders_break_a_promise() {
    let mut random = Random::new(76);
    let made = volume(&mut random, Shape::Empty, 12);
    let change = Change::draw(&mut random, &made, 3).expect("a store");
    let right = Series::of_reference(&mut random, change, &made.image);
    assert_eq!(right.is_whole(), Ok(()));
    let mut four = right.clone();
    four.stores.rotate_right(1);
    four.stores.remove(1);
    assert!(four.is_whole().is_err());
    let mut swapped = right.clone();
    swapped.stores.swap(0, 4);
    assert!(swapped.is_whole().is_err());
    let cut = swapped.cut(4);
    assert!(swapped.holds(4, &cut, check(&cut).err()).is_err());
    assert!(tfs::check(&right.cut(4)).is_ok());
}
