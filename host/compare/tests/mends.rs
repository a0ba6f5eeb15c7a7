//! The comparison finds programs that mend wrongly, and so do the stored cases.

mod sought;
mod told;

use compare::sides::reference;
use compare::{Answer, Lents, Side};
use generate::cuts::Standing;
use reference::request::{Arguments, Request};
use sought::found_in;
use told::tell_all;

const MEND: Request = Request::TfsMend;

/// The byte of an image and the bit in it that stand for a block.
fn place(block: usize) -> (usize, u8) {
    (512 + block / 32 * 4 + 3 - block % 32 / 8, 1 << (block % 8))
}

/// Answers a mend in another way, told by the image before it and the right answer.
fn mended(
    request: Request,
    arguments: &Arguments,
    lents: &mut Lents,
    wrong: fn(&[u8], Answer, &mut [u8]) -> Answer,
) -> Answer {
    let before = lents.image.bytes().to_vec();
    let answer = reference(request, arguments, lents);
    match request {
        MEND => wrong(&before, answer, lents.image.bytes_mut()),
        _ => answer,
    }
}

/// The number of blocks of an image.
fn blocks(image: &[u8]) -> usize {
    (image.len() / 512).min(4096)
}

/// A program whose mend is wrong in a way.
macro_rules! mending {
    ($wrong:expr) => {
        |request, arguments, lents| mended(request, arguments, lents, $wrong)
    };
}

fn sets_a_missing_bit(before: &[u8], answer: Answer, image: &mut [u8]) -> Answer {
    if answer.refusal() != 7 {
        return answer;
    }
    image.copy_from_slice(before);
    while let Some(missing) = Standing::of(image).missing() {
        let (at, bit) = place(missing);
        image[at] |= bit;
    }
    while let Some(stray) = Standing::of(image).stray() {
        let (at, bit) = place(stray);
        image[at] &= !bit;
    }
    Answer::default()
}

fn clears_from_n_on(_: &[u8], answer: Answer, image: &mut [u8]) -> Answer {
    if answer.refusal() == 0 {
        for block in blocks(image)..4096 {
            let (at, bit) = place(block);
            image[at] &= !bit;
        }
    }
    answer
}

/// The same, but only in the word that N cuts.
fn clears_the_last_word(_: &[u8], answer: Answer, image: &mut [u8]) -> Answer {
    if answer.refusal() == 0 {
        for block in blocks(image)..blocks(image).next_multiple_of(32) {
            let (at, bit) = place(block);
            image[at] &= !bit;
        }
    }
    answer
}

fn clears_the_first_three(_: &[u8], answer: Answer, image: &mut [u8]) -> Answer {
    if answer.refusal() == 0 {
        image[515] &= !7;
    }
    answer
}

fn clears_one_bit(before: &[u8], answer: Answer, image: &mut [u8]) -> Answer {
    if answer.refusal() == 0 {
        image.copy_from_slice(before);
        if let Some(stray) = Standing::of(image).stray() {
            let (at, bit) = place(stray);
            image[at] &= !bit;
        }
    }
    answer
}

fn clears_nothing(before: &[u8], answer: Answer, image: &mut [u8]) -> Answer {
    image.copy_from_slice(before);
    answer
}

fn clears_and_refuses(before: &[u8], answer: Answer, image: &mut [u8]) -> Answer {
    if answer.refusal() == 7 {
        image.copy_from_slice(before);
        while let Some(stray) = Standing::of(image).stray() {
            let (at, bit) = place(stray);
            image[at] &= !bit;
        }
    }
    answer
}

fn refuses_at_a_stray_bit(before: &[u8], answer: Answer, _: &mut [u8]) -> Answer {
    match answer.refusal() {
        7 => {
            let checked = reference::tfs::check(before).expect_err("a fault");
            Answer::of(&[7, checked.place.into()])
        }
        _ => answer,
    }
}

fn refuses_what_is_consistent(before: &[u8], answer: Answer, _: &mut [u8]) -> Answer {
    match reference::tfs::check(before) {
        Ok(()) => Answer::of(&[7]),
        Err(_) => answer,
    }
}

/// Passes over a rule, clears what nobody claims and grants.
fn mends_a_block_claimed_twice(before: &[u8], answer: Answer, image: &mut [u8]) -> Answer {
    if answer.refusal() != 6 || Standing::of(before).missing().is_some() {
        return answer;
    }
    while let Some(stray) = Standing::of(image).stray() {
        let (at, bit) = place(stray);
        image[at] &= !bit;
    }
    Answer::default()
}

/// Grants what is refused with another number, and changes nothing.
fn passes_over<const NUMBER: u32>(_: &[u8], answer: Answer, _: &mut [u8]) -> Answer {
    match answer.refusal() == NUMBER {
        true => Answer::default(),
        false => answer,
    }
}

const WRONG: [(&str, Side); 13] = [
    ("sets a missing bit", mending!(sets_a_missing_bit)),
    ("clears from N on", mending!(clears_from_n_on)),
    ("clears the last word", mending!(clears_the_last_word)),
    ("clears the first three", mending!(clears_the_first_three)),
    ("clears one bit", mending!(clears_one_bit)),
    ("clears nothing", mending!(clears_nothing)),
    ("clears and refuses", mending!(clears_and_refuses)),
    ("refuses at a stray bit", mending!(refuses_at_a_stray_bit)),
    (
        "refuses what is consistent",
        mending!(refuses_what_is_consistent),
    ),
    (
        "mends a block claimed twice",
        mending!(mends_a_block_claimed_twice),
    ),
    ("passes over rule 4", mending!(passes_over::<4>)),
    ("passes over rule 5", mending!(passes_over::<5>)),
    ("passes over rule 7", mending!(passes_over::<7>)),
];

#[test]
fn wrong_mends_are_found() {
    for (what, side) in WRONG {
        let found = found_in(" --only tfs", side);
        assert_eq!(found.difference.request, MEND, "{what}");
        assert!(found.image < 120, "{what} on image {} only", found.image);
    }
}

#[test]
fn stored_cases_tell_wrong_mends() {
    tell_all(&WRONG);
}
