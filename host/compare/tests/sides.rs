//! The two programs agree, and the comparison finds programs that do not.

mod sought;

use compare::sides::{proved, reference};
use compare::{options, Answer, Lents, Side};
use reference::request::{Arguments, Request};
use sought::{compared, found};

/// The refusals that each request can give.
const REFUSALS: [(Request, &[u32]); 24] = [
    (Request::TfsFormat, &[1, 8]),
    (Request::TfsCheck, &[1, 2, 3, 4, 5, 6, 7]),
    (Request::TfsCreate, &[1, 2, 3, 4, 5, 6, 7, 8, 9, 10, 11, 12]),
    (Request::TfsRemove, &[1, 2, 3, 4, 5, 6, 7, 8, 13]),
    (Request::TfsRead, &[1, 2, 3, 4, 5, 6, 7, 8, 13, 15]),
    (Request::TfsWrite, &[1, 2, 3, 4, 5, 6, 7, 8, 13, 15]),
    (Request::TfsList, &[1, 2, 3, 4, 5, 6, 7, 14]),
    (Request::TfsFree, &[1, 2, 3, 4, 5, 6, 7]),
    (
        Request::TfsCreateStore,
        &[1, 2, 3, 4, 5, 6, 7, 8, 9, 10, 11, 12, 32],
    ),
    (Request::TfsRemoveStore, &[1, 2, 3, 4, 5, 6, 7, 8, 13, 32]),
    (
        Request::TfsWriteStore,
        &[1, 2, 3, 4, 5, 6, 7, 8, 13, 15, 32],
    ),
    (Request::TfsMend, &[1, 2, 3, 4, 5, 6, 7]),
    (Request::TfsReplay, &[1, 2, 3, 4, 5, 6, 7]),
    (Request::TraceRead, &[]),
    (Request::TraceWrite, &[33]),
    (Request::RomCheck, &[21, 22, 23, 24, 25, 26, 27, 28, 29]),
    (
        Request::RomFind,
        &[21, 22, 23, 24, 25, 26, 27, 28, 29, 30, 31],
    ),
    (Request::RomEntry, &[21, 22, 23, 24, 25, 26, 27, 28, 29, 31]),
    (
        Request::RomContent,
        &[21, 22, 23, 24, 25, 26, 27, 28, 29, 31],
    ),
    (Request::TimingStore, &[1, 2, 3, 4, 5, 6, 7, 11, 12, 34, 35]),
    (Request::TimingOpenLid, &[1, 2, 3, 4, 5, 6, 7, 13, 35]),
    (
        Request::TimingBoot,
        &[1, 2, 3, 4, 5, 6, 7, 13, 34, 35, 36, 37],
    ),
    (
        Request::TimingStoreBlock,
        &[1, 2, 3, 4, 5, 6, 7, 11, 12, 32, 34, 35],
    ),
    (
        Request::TimingOpenLidBlock,
        &[1, 2, 3, 4, 5, 6, 7, 13, 32, 35],
    ),
];

#[test]
fn both_agree_and_every_answer_is_met() {
    let (tally, found) = compared("--seed 7 --cases 40000", proved);
    assert!(found.is_none(), "{found:?}");
    assert_eq!(tally.requests(), 40_000);
    for (request, refusals) in REFUSALS {
        assert!(tally.granted(request) > 100, "{request:?}");
        let met: Vec<u32> = (1..38)
            .filter(|number| tally.refused(request, *number) > 0)
            .collect();
        assert_eq!(met, refusals, "{request:?}");
    }
    assert!((0..3).all(|outcome| tally.ended(outcome) > 100));
    assert!((0..6).all(|kind| tally.read(kind) > 20));
    assert!((0..5).all(|kind| tally.cuts(kind) > 100));
}

#[test]
fn the_same_seed_draws_the_same() {
    let first = compared("--seed 3 --cases 2000", proved).0;
    assert_eq!(compared("--seed 3 --cases 2000", proved).0, first);
    assert_ne!(compared("--seed 4 --cases 2000", proved).0, first);
}

#[test]
fn bad_options_are_refused() {
    for words in [
        "--seed",
        "--seed x",
        "--cases -1",
        "--only ext2",
        "--other 1",
    ] {
        let words = words.split(' ').map(str::to_owned);
        assert!(options::parse(words).is_none());
    }
}

#[test]
fn a_read_that_changes_the_rest_of_the_buffer() {
    let found = found(|request, arguments, lents| {
        let answer = reference(request, arguments, lents);
        let rest = lents.buffer.bytes_mut().get_mut(answer.value() as usize);
        if let (Request::TfsRead, 0, Some(byte)) = (request, answer.refusal(), rest) {
            *byte ^= 1;
        }
        answer
    });
    assert_eq!(found.difference.request, Request::TfsRead);
    assert!(found.difference.at[2].is_some());
}

#[test]
fn a_create_that_zeros_only_part_of_its_last_block() {
    let found = found(|request, arguments, lents| {
        let before = lents.image.bytes().to_vec();
        let answer = reference(request, arguments, lents);
        if request == Request::TfsCreate && answer.refusal() == 0 {
            keep_the_end(
                &before,
                lents,
                answer.value() as usize,
                arguments.number as usize,
            );
        }
        answer
    });
    assert_eq!(found.difference.request, Request::TfsCreate);
    assert!(found.difference.at[0].is_some());
}

/// Puts back the bytes behind the content of a new file.
fn keep_the_end(before: &[u8], lents: &mut Lents, inode: usize, size: usize) {
    let image = lents.image.bytes_mut();
    let word = 512 * inode + 4 * size.div_ceil(512);
    if !size.is_multiple_of(512) {
        let block = u32::from_be_bytes(image[word..word + 4].try_into().unwrap()) as usize;
        let end = 512 * block + size % 512..512 * block + 512;
        image[end.clone()].copy_from_slice(&before[end]);
    }
}

#[test]
fn a_refused_write_that_writes() {
    let found = found(|request, arguments, lents| {
        let answer = reference(request, arguments, lents);
        if (request, answer.refusal()) == (Request::TfsWrite, 15) {
            lents.image.bytes_mut()[1535] ^= 1;
        }
        answer
    });
    assert_eq!(found.difference.at[0], Some(1535));
}

fn changed(answer: Answer, index: usize) -> Answer {
    let mut answer = answer;
    answer.words[index] += 1;
    answer
}

#[test]
fn wrong_places_and_values() {
    for number in 1..=7 {
        assert_eq!(
            found(wrong_place(number)).difference.answers[1].refusal(),
            number
        );
    }
    let list = found(|request, arguments, lents| {
        let answer = reference(request, arguments, lents);
        let free = request == Request::TfsList && answer == Answer::default();
        if free {
            changed(answer, 5)
        } else {
            answer
        }
    });
    assert_eq!(list.difference.request, Request::TfsList);
    let content = found(|request, arguments: &Arguments, lents| {
        let answer = reference(request, arguments, lents);
        let empty = request == Request::RomContent && answer.refusal() == 0 && answer.words[3] == 0;
        if empty {
            changed(answer, 2)
        } else {
            answer
        }
    });
    assert_eq!(content.difference.request, Request::RomContent);
}

/// A program that gives one refusal a wrong place.
fn wrong_place(number: u32) -> Side {
    fn side<const NUMBER: u32>(
        request: Request,
        arguments: &Arguments,
        lents: &mut Lents,
    ) -> Answer {
        let answer = reference(request, arguments, lents);
        let wrong = answer.refusal() == NUMBER;
        if wrong {
            changed(answer, 1)
        } else {
            answer
        }
    }
    [
        side::<1>, side::<2>, side::<3>, side::<4>, side::<5>, side::<6>, side::<7>,
    ][number as usize - 1]
}
