//! Cases meet every answer, and the same seed gives the same ones.

mod ways;

use std::collections::HashSet;

use generate::cases::{romfs_cases, stored, tfs_cases, Case};
use generate::tfs::{has_leftovers, padding};
use reference::request::{run, Arguments, Request};
use reference::tfs::{self, Listing, BLOCK_SIZE};

fn numbers(cases: &[Case]) -> HashSet<(Request, u32)> {
    cases
        .iter()
        .map(|case| (case.request, case.answer.number))
        .collect()
}

#[test]
fn cases_meet_every_answer_and_stay_small() {
    let cases = tfs_cases(1, 700, false);
    let met = numbers(&cases);
    for number in 0..=7 {
        assert!(met.contains(&(Request::TfsCheck, number)), "{number}");
    }
    let wanted = [
        (Request::TfsFormat, vec![0, 1, 8]),
        (Request::TfsRemove, vec![0, 8, 13]),
        (Request::TfsCreate, vec![0, 8, 9, 10, 11, 12]),
        (Request::TfsRead, vec![0, 8, 13, 15]),
        (Request::TfsWrite, vec![0, 8, 13, 15]),
        (Request::TfsList, vec![0, 14]),
        (Request::TfsFree, vec![0]),
        (Request::TfsCreateStore, vec![0, 8, 9, 10, 11, 12, 32]),
        (Request::TfsRemoveStore, vec![0, 8, 13, 32]),
        (Request::TfsWriteStore, vec![0, 8, 13, 15, 32]),
        (Request::TfsMend, vec![0, 1, 2, 3, 4, 5, 6, 7]),
    ];
    for (request, owed) in wanted {
        for number in owed {
            assert!(met.contains(&(request, number)), "{request:?} {number}");
        }
    }
    assert!(cases.iter().map(|case| case.image.len()).sum::<usize>() < 5 << 20);
}

#[test]
fn romfs_cases_meet_every_answer() {
    let cases = romfs_cases(1, 600);
    let met = numbers(&cases);
    for number in [0, 21, 22, 23, 24, 25, 26, 27, 28, 29] {
        assert!(met.contains(&(Request::RomCheck, number)), "{number}");
    }
    for number in [0, 30, 31] {
        assert!(met.contains(&(Request::RomFind, number)), "{number}");
    }
    for request in [Request::RomEntry, Request::RomLength] {
        assert!(met.contains(&(request, 0)) && met.contains(&(request, 31)));
    }
    assert!(cases
        .iter()
        .any(|case| case.request == Request::RomContent && !case.answer.text.is_empty()));
}

/// Reads and writes on sound volumes: the request, the answer's number, whether the offset is past
/// the end of every file, and whether the buffer is empty.
fn transfers(cases: &[Case]) -> HashSet<(Request, u32, bool, bool)> {
    let size = |image: &[u8], slot| match tfs::list(image, slot) {
        Ok(Listing::Used { size, .. }) => size,
        _ => 0,
    };
    let moves = |case: &&Case| matches!(case.request, Request::TfsRead | Request::TfsWrite);
    let sound = |case: &&Case| tfs::check(&case.image).is_ok();
    let told = |case: &Case| {
        let Arguments { number, buffer, .. } = &case.arguments;
        let past = (0..25).all(|slot| *number > size(&case.image, slot));
        (case.request, case.answer.number, past, buffer.is_empty())
    };
    cases.iter().filter(moves).filter(sound).map(told).collect()
}

#[test]
fn replays_end_in_every_way() {
    let cases = tfs_cases(1, 700, false);
    let replays = cases
        .iter()
        .filter(|case| case.request == Request::TfsReplay);
    let ends = |case: &Case| (case.answer.number, case.answer.values.first().copied());
    let met: HashSet<_> = replays.map(ends).collect();
    let owed = (0..=2).map(|outcome| (0, Some(outcome)));
    let refused = (1..=7).map(|number| (number, None));
    assert_eq!(met, owed.chain(refused).collect());
}

#[test]
fn a_name_is_refused_before_an_offset() {
    let met = transfers(&tfs_cases(1, 700, false));
    for request in [Request::TfsRead, Request::TfsWrite] {
        for (past, empty) in [(false, false), (false, true), (true, false), (true, true)] {
            for number in [8, 13, if past { 15 } else { 0 }] {
                let wanted = (request, number, past, empty);
                assert!(met.contains(&wanted), "{wanted:?}");
            }
        }
    }
}

#[test]
fn a_good_part_of_the_images_has_leftovers() {
    let cases = tfs_cases(1, 700, false);
    let sound = |case: &&Case| tfs::check(&case.image).is_ok();
    let (mut used, mut free) = (0, 0);
    for case in cases.iter().filter(sound) {
        let left = |slot: &u32| has_leftovers(&case.image, *slot as usize);
        let is_free = |slot: &u32| tfs::list(&case.image, *slot) == Ok(Listing::Free);
        used += usize::from((0..25).filter(left).any(|slot| !is_free(&slot)));
        free += usize::from((0..25).filter(left).any(|slot| is_free(&slot)));
    }
    assert!(used > 150 && free > 150, "{used} {free}");
}

#[test]
fn room_is_counted_wherever_the_end_cuts_a_word() {
    let cases = tfs_cases(1, 700, false);
    for (request, number) in [
        (Request::TfsFree, 0),
        (Request::TfsCreate, 0),
        (Request::TfsCreate, 12),
    ] {
        let answered = |case: &&Case| (case.request, case.answer.number) == (request, number);
        let cut = |case: &Case| {
            let blocks = case.image.len() / BLOCK_SIZE;
            let padded = padding(&case.image, blocks) == [!blocks.is_multiple_of(32), true];
            padded.then_some(blocks % 32)
        };
        let met: HashSet<usize> = cases.iter().filter(answered).filter_map(cut).collect();
        assert_eq!(met.len(), 32, "{request:?} {number} {met:?}");
    }
}

#[test]
fn cases_meet_every_way_to_break_a_slot() {
    let cases = tfs_cases(1, 700, false);
    let refused = cases.iter().filter(|case| case.answer.number == 4);
    let met = refused.map(|case| ways::way(&case.image, case.answer.place));
    let met: HashSet<_> = met.collect();
    assert_eq!(met.len(), 9, "{met:?}");
}

/// The number of a store among those of its request, 0 for one that there is not.
fn place(case: &Case) -> Option<(Request, usize, usize)> {
    let whole = stored(case.request)?;
    let arguments = Arguments {
        buffer: case.arguments.bytes.clone(),
        ..case.arguments.clone()
    };
    let mut image = case.image.clone();
    let mut bytes = arguments.buffer.clone();
    let (values, _) = run(whole, &arguments, &mut image, &mut bytes).ok()?;
    let last = match whole {
        Request::TfsCreate => (arguments.number as usize).div_ceil(BLOCK_SIZE) + 3,
        Request::TfsRemove => 2,
        _ => values[1] as usize,
    };
    Some((case.request, arguments.k, last))
}

#[test]
fn stores_are_asked_for_by_every_kind_of_number() {
    let cases = tfs_cases(1, 700, false);
    let with_room = |case: &&Case| case.arguments.buffer.len() >= BLOCK_SIZE;
    let places: Vec<_> = cases.iter().filter(with_room).filter_map(place).collect();
    for wanted in [
        Request::TfsCreateStore,
        Request::TfsRemoveStore,
        Request::TfsWriteStore,
    ] {
        let asked = || places.iter().filter(|(request, ..)| *request == wanted);
        assert!(asked().any(|(_, k, _)| *k == 0));
        assert!(asked().any(|(_, k, last)| k == last));
        assert!(asked().any(|(_, k, last)| *k == last + 1));
        assert!(asked().any(|(_, k, last)| (1..=*last).contains(&(k & 0xFFFF_FFFF)) && k > last));
        assert!(asked().any(|(_, k, _)| *k == usize::MAX));
        let granted = asked().filter(|(_, k, last)| (1..=*last).contains(k));
        let mut numbers: Vec<usize> = granted.map(|(_, k, _)| *k).collect();
        numbers.sort();
        numbers.dedup();
        assert!(numbers.len() >= 2, "{wanted:?} {numbers:?}");
    }
}

#[test]
fn mends_clear_bits_or_none() {
    let cases = tfs_cases(1, 700, false);
    let mends = cases.iter().filter(|case| case.request == Request::TfsMend);
    let told = |case: &Case| {
        (
            case.answer.number,
            tfs::check(&case.image).err().map(|c| c.place),
        )
    };
    let (mut cleared, mut kept, mut passed) = (0, 0, 0);
    for case in mends {
        match told(case) {
            (0, None) => kept += 1,
            (0, Some(_)) => cleared += 1,
            (7, place) => passed += usize::from(place != Some(case.answer.place)),
            _ => {}
        }
    }
    assert!(
        cleared > 10 && kept > 1 && passed > 1,
        "{cleared} {kept} {passed}"
    );
}

#[test]
fn the_same_seed_gives_the_same_cases() {
    assert_eq!(tfs_cases(5, 40, false), tfs_cases(5, 40, false));
    assert_eq!(romfs_cases(5, 40), romfs_cases(5, 40));
    assert_ne!(romfs_cases(5, 40), romfs_cases(6, 40));
}

#[test]
fn large_cases_stand_at_the_end() {
    let cases = tfs_cases(5, 24, true);
    assert_eq!(cases.len(), 24);
    assert!(cases[7..].iter().all(|case| case.image.len() >= 2_097_152));
    assert!(cases[..7].iter().all(|case| case.image.len() < 100_000));
}
