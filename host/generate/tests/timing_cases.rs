//! Stored cases of the timing file meet every answer and every store.

use std::collections::HashSet;

use generate::cases::{fnv1a, tfs_cases, Case};
use generate::timing::{held, is_on_file, values_for};
use reference::request::Request;
use reference::tfs::check;

fn timing_cases() -> Vec<Case> {
    let mut cases = tfs_cases(1, 700, false);
    cases.retain(|case| is_on_file(case.request));
    cases
}

fn granted(case: &&Case) -> bool {
    case.answer.number == 0
}

#[test]
fn every_answer_is_met_on_small_volumes() {
    let cases = timing_cases();
    let number = |case: &Case| (case.request, case.answer.number);
    let met: HashSet<(Request, u32)> = cases.iter().map(number).collect();
    let wanted = [
        (Request::TimingStore, vec![0, 34, 35, 11, 12]),
        (Request::TimingOpenLid, vec![0, 13, 35]),
        (Request::TimingBoot, vec![0, 13, 35, 34, 36, 37]),
        (Request::TimingBoot, (1..=7).collect()),
        (Request::TimingStoreBlock, vec![0, 34, 35, 11, 12, 32]),
        (Request::TimingOpenLidBlock, vec![0, 13, 35, 32]),
    ];
    for (request, owed) in wanted {
        for number in owed {
            assert!(met.contains(&(request, number)), "{request:?} {number}");
        }
        assert!((1..=7).any(|number| met.contains(&(request, number))));
    }
    assert!(cases.iter().all(|case| case.image.len() <= 40 * 512));
}

/// The other requests have the rest, about 600.
#[test]
fn a_seventh_of_the_cases_is_on_the_timing_file() {
    let count = timing_cases().len();
    assert!((90..=115).contains(&count), "{count}");
}

/// Tells of granted requests whether the file stands before, and with a board number; and which
/// store is asked for.
#[test]
fn every_kind_of_grant_is_met() {
    let cases = timing_cases();
    let told = |case: &Case| {
        let file = held(&case.image).map(|timing| timing.board != 0);
        (case.request, file, case.arguments.k)
    };
    let met: HashSet<_> = cases.iter().filter(granted).map(told).collect();
    for (request, k) in [
        (Request::TimingStore, 0),
        (Request::TimingOpenLid, 0),
        (Request::TimingStoreBlock, 1),
        (Request::TimingOpenLidBlock, 1),
    ] {
        for file in [Some(true), Some(false)] {
            assert!(met.contains(&(request, file, k)), "{request:?} {file:?}");
        }
    }
    assert!(met.contains(&(Request::TimingStore, None, 0)));
    assert!(met.contains(&(Request::TimingBoot, Some(true), 0)));
    for k in 1..=5 {
        assert!(met.contains(&(Request::TimingStoreBlock, None, k)), "{k}");
    }
}

#[test]
fn stores_are_asked_for_by_every_kind_of_number() {
    let cases = timing_cases();
    let refused = |case: &&Case| case.answer.number == 32;
    for (request, stands, last) in [
        (Request::TimingStoreBlock, true, 1),
        (Request::TimingStoreBlock, false, 5),
        (Request::TimingOpenLidBlock, true, 1),
    ] {
        let of = |case: &&Case| case.request == request && held(&case.image).is_some() == stands;
        let asked = |case: &Case| (case.arguments.k, case.arguments.buffer.len());
        let met: HashSet<_> = cases.iter().filter(refused).filter(of).map(asked).collect();
        for k in [0, last + 1, (1 << 32) + 1, 1 << 63 | 1, usize::MAX] {
            assert!(met.contains(&(k, 512)), "{request:?} {k}");
        }
        for room in [0, 511] {
            assert!(met.contains(&(1, room)), "{request:?} {room}");
        }
    }
}

/// The buffer of a boot becomes its values, zeros where it is refused, and they enter the hash.
#[test]
fn the_values_of_a_boot_enter_the_hash() {
    let boots = timing_cases();
    let boots = boots
        .iter()
        .filter(|case| case.request == Request::TimingBoot);
    for case in boots {
        let timing = &case.arguments.timing;
        let sound = check(&case.image).is_ok();
        let values = sound.then(|| values_for(&case.image, timing.board, timing.maker));
        let owed = values.flatten().unwrap_or_default();
        assert_eq!(owed != [0; 28], case.answer.number == 0);
        let bytes = owed.map(u16::to_be_bytes).concat();
        assert_eq!(case.answer.hash, fnv1a(case.image.iter().chain(&bytes)));
        assert_eq!(case.arguments.buffer.len(), 56);
        assert!(case.arguments.buffer != bytes && case.answer.values.is_empty());
    }
}
