//! The comparison finds programs that count the ones of the map wrongly.

mod sought;

use std::cell::RefCell;
use std::collections::HashSet;

use compare::sides::reference;
use compare::{Answer, Lents, Side};
use generate::cases::{tfs_cases, Case};
use generate::tfs::padding;
use reference::request::{Arguments, Request};
use sought::{compared, found_in};

/// Counts the ones of the map's words for a volume of so many blocks.
type Count = fn(&[u32], usize) -> u32;

fn ones(words: &[u32]) -> u32 {
    words.iter().map(|word| word.count_ones()).sum()
}

/// The ones of the words that start below N, of the last only those of its lowest bits.
fn ones_up_to(words: &[u32], blocks: usize, bits: usize) -> u32 {
    let (last, whole) = words[..blocks.div_ceil(32)].split_last().expect("a word");
    let mask = ((1u64 << bits) - 1) as u32;
    ones(whole) + ones(&[last & mask])
}

/// How many bits of the last word that starts below N are below N, 1 to 32.
fn bits_below(blocks: usize) -> usize {
    (blocks - 1) % 32 + 1
}

fn right(words: &[u32], blocks: usize) -> u32 {
    ones_up_to(words, blocks, bits_below(blocks))
}

fn last_not_masked(words: &[u32], blocks: usize) -> u32 {
    ones_up_to(words, blocks, 32)
}

fn masked_a_bit_late(words: &[u32], blocks: usize) -> u32 {
    ones_up_to(words, blocks, 32.min(bits_below(blocks) + 1))
}

fn masked_a_bit_early(words: &[u32], blocks: usize) -> u32 {
    ones_up_to(words, blocks, bits_below(blocks) - 1)
}

/// Loses all of the last word where N is a multiple of 32.
fn masked_by_the_remainder(words: &[u32], blocks: usize) -> u32 {
    ones_up_to(words, blocks, blocks % 32)
}

/// Takes the bytes of a word that N cuts in the other order.
fn cut_little_endian(words: &[u32], blocks: usize) -> u32 {
    let mut words = words.to_vec();
    if !blocks.is_multiple_of(32) {
        words[blocks / 32] = words[blocks / 32].swap_bytes();
    }
    right(&words, blocks)
}

/// Counts a word that starts at N too.
fn a_word_too_many(words: &[u32], blocks: usize) -> u32 {
    let at_end = words.get(blocks / 32).filter(|_| blocks.is_multiple_of(32));
    right(words, blocks) + at_end.map_or(0, |word| word.count_ones())
}

fn zeros(words: &[u32], blocks: usize) -> u32 {
    blocks as u32 - right(words, blocks)
}

fn blocks(image: &[u8]) -> usize {
    (image.len() / 512).min(4096)
}

/// How many blocks of an image are free by a count.
fn free(image: &[u8], count: Count) -> u32 {
    let words = image[512..1024].as_chunks().0.iter();
    let words: Vec<u32> = words.map(|word| u32::from_be_bytes(*word)).collect();
    let blocks = blocks(image);
    (blocks as u32).saturating_sub(count(&words, blocks))
}

/// How many blocks a file of some size needs.
fn needed(size: u32) -> u32 {
    1 + size.div_ceil(512)
}

/// Answers one request, free bytes or create, by a count of its own.
fn counted(
    request: Request,
    arguments: &Arguments,
    lents: &mut Lents,
    wrong: Request,
    count: Count,
) -> Answer {
    let before = lents.image.bytes().to_vec();
    let answer = reference(request, arguments, lents);
    if request != wrong || !matches!(answer.refusal(), 0 | 12) {
        return answer;
    }
    let free = free(&before, count);
    let room = free >= needed(arguments.number);
    match (request, answer.refusal()) {
        (Request::TfsFree, _) => Answer::of(&[0, 0, 512 * u64::from(free)]),
        (_, 0) if !room => {
            lents.image.bytes_mut().copy_from_slice(&before);
            Answer::of(&[12])
        }
        // It takes a block that there is not.
        (_, 12) if room => Answer::of(&[0, 0, blocks(&before) as u64]),
        _ => answer,
    }
}

/// A count, and the programs that answer free bytes and create by it.
macro_rules! counting {
    ($count:expr) => {
        (
            $count,
            [
                |r, a, l| counted(r, a, l, Request::TfsFree, $count),
                |r, a, l| counted(r, a, l, Request::TfsCreate, $count),
            ],
        )
    };
}

const WRONG: [(Count, [Side; 2]); 7] = [
    counting!(last_not_masked),
    counting!(masked_a_bit_late),
    counting!(masked_a_bit_early),
    counting!(masked_by_the_remainder),
    counting!(cut_little_endian),
    counting!(a_word_too_many),
    counting!(zeros),
];

#[test]
fn ones_counted_wrongly() {
    for (_, [free_bytes, create]) in WRONG {
        let difference = found_in(" --only tfs", free_bytes).difference;
        assert_eq!(difference.request, Request::TfsFree);
        assert_eq!(difference.answers.map(|answer| answer.refusal()), [0, 0]);
        let difference = found_in(" --only tfs", create).difference;
        assert_eq!(difference.request, Request::TfsCreate);
        let refusals = difference.answers.map(|answer| answer.refusal());
        assert!(matches!(refusals, [0, 12] | [12, 0]), "{refusals:?}");
    }
}

#[test]
fn ones_counted_rightly() {
    let (_, [free_bytes, create]): (Count, [Side; 2]) = counting!(right);
    for side in [free_bytes, create] {
        let (_, found) = compared("--seed 1 --cases 40000 --only tfs", side);
        assert!(found.is_none(), "{found:?}");
    }
}

thread_local! {
    /// The numbers of blocks of volumes whose free bytes were granted, and where padding was set.
    static MET: RefCell<HashSet<(usize, [bool; 2])>> = RefCell::default();
}

/// Answers as the reference does, and notes the volumes whose free bytes it gives.
fn noting(request: Request, arguments: &Arguments, lents: &mut Lents) -> Answer {
    let answer = reference(request, arguments, lents);
    if (request, answer.refusal()) == (Request::TfsFree, 0) {
        let image = lents.image.bytes();
        let blocks = blocks(image);
        MET.with_borrow_mut(|met| met.insert((blocks, padding(image, blocks))));
    }
    answer
}

#[test]
fn room_is_counted_wherever_the_end_cuts_a_word() {
    compared("--seed 7 --cases 100000 --only tfs", noting);
    let met = MET.take();
    for cut in 0..32 {
        let padded = |met: &(usize, [bool; 2])| (met.0 % 32, met.1) == (cut, [cut != 0, true]);
        assert!(met.iter().any(padded), "{cut}");
    }
    for blocks in [32, 64, 96, 128] {
        assert!(met.contains(&(blocks, [false, true])), "{blocks}");
    }
    assert!(met.contains(&(4096, [false; 2])));
}

/// Tells whether a count gives another answer than a stored case has.
fn differs(case: &Case, count: Count) -> bool {
    let free = free(&case.image, count);
    match case.request {
        Request::TfsFree => case.answer.values != [512 * free],
        _ => (free < needed(case.arguments.number)) != (case.answer.number == 12),
    }
}

#[test]
fn stored_cases_tell_wrong_counts() {
    let cases = tfs_cases(1, 700, false);
    for request in [Request::TfsFree, Request::TfsCreate] {
        let counts =
            |case: &&Case| case.request == request && [0, 12].contains(&case.answer.number);
        let cases: Vec<&Case> = cases.iter().filter(counts).collect();
        for (count, _) in WRONG {
            assert!(cases.iter().any(|case| differs(case, count)));
        }
        assert!(!cases.iter().any(|case| differs(case, right)));
    }
}
