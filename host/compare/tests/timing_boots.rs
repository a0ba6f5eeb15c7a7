//! The comparison finds programs that boot wrongly on the timing file, also where both sides do so in
//! the same way.

mod sought;
mod timed;
mod told;

use compare::{Answer, Side};
use generate::cuts::contents;
use generate::timing::{held, NAME};
use reference::tfs;
use reference::timing::{self, Timing};
use sought::found_in;
use timed::{broken_by_cut, broken_in_history, find, granted, refused, Asked};

/// What the timing file of an image holds, if the image is a consistent volume.
fn held_by(image: &[u8]) -> Option<Timing> {
    tfs::check(image).ok().and_then(|()| held(image))
}

/// What 64 bytes say.
fn said(bytes: &[u8]) -> Timing {
    Timing::of(bytes.try_into().expect("64 bytes"))
}

/// Answers a boot by the numbers that fail, in an order of refusals.
fn by(order: &[u32], held: &Timing, given: &Timing) -> Answer {
    let fails = |number: &&u32| match number {
        34 => held.board == 0,
        36 => held.board != given.board,
        _ => held.maker != given.maker,
    };
    match order.iter().find(fails) {
        None => granted().valued(held.values),
        Some(number) => refused(*number),
    }
}

/// The same where the file stands and has its size.
fn in_order(asked: Asked<'_>, order: &[u32]) -> Answer {
    let given = &asked.arguments.timing;
    held_by(asked.before).map_or(asked.answer, |held| by(order, &held, given))
}

fn board_only(asked: Asked<'_>) -> Answer {
    in_order(asked, &[34, 36])
}

fn maker_only(asked: Asked<'_>) -> Answer {
    in_order(asked, &[34, 37])
}

fn opened_last(asked: Asked<'_>) -> Answer {
    in_order(asked, &[36, 37, 34])
}

fn opened_between(asked: Asked<'_>) -> Answer {
    in_order(asked, &[36, 34, 37])
}

fn opened_not_tested(asked: Asked<'_>) -> Answer {
    in_order(asked, &[36, 37])
}

fn maker_first(asked: Asked<'_>) -> Answer {
    in_order(asked, &[34, 37, 36])
}

fn swapped_numbers(asked: Asked<'_>) -> Answer {
    match asked.answer.refusal() {
        36 => refused(37),
        37 => refused(36),
        _ => asked.answer,
    }
}

fn given_0_is_34(asked: Asked<'_>) -> Answer {
    match (asked.arguments.timing.board, asked.answer.refusal()) {
        (0, 13 | 35 | 36) => refused(34),
        _ => asked.answer,
    }
}

fn numbers_turned(asked: Asked<'_>) -> Answer {
    let Timing { board, maker, .. } = asked.arguments.timing;
    let booted = timing::boot(asked.before, board.swap_bytes(), maker.swap_bytes());
    match booted.answer {
        Ok(()) => granted().valued(booted.values),
        Err(_) => asked.answer,
    }
}

/// Leaves the file's values in a refused answer.
fn values_left(asked: Asked<'_>) -> Answer {
    let held = held_by(asked.before);
    held.map_or(asked.answer, |held| asked.answer.valued(held.values))
}

/// Takes the first 64 bytes of a longer file, or a shorter one with zeros behind.
fn of_any_size(asked: Asked<'_>, longer: bool) -> Answer {
    if asked.answer.refusal() != 35 {
        return asked.answer;
    }
    let mut content = contents(asked.before).remove(NAME).expect("the file");
    if (content.len() > 64) != longer {
        return asked.answer;
    }
    content.resize(64, 0);
    by(&[34, 36, 37], &said(&content), &asked.arguments.timing)
}

fn longer_booted(asked: Asked<'_>) -> Answer {
    of_any_size(asked, true)
}

fn shorter_booted(asked: Asked<'_>) -> Answer {
    of_any_size(asked, false)
}

fn little_endian(asked: Asked<'_>) -> Answer {
    asked
        .answer
        .valued(asked.answer.values.map(u16::swap_bytes))
}

fn last_value_lost(asked: Asked<'_>) -> Answer {
    let mut values = asked.answer.values;
    values[27] = 0;
    asked.answer.valued(values)
}

fn boot_opens(asked: Asked<'_>) -> Answer {
    if asked.answer.refusal() == 0 {
        timing::open_lid(asked.lents.image.bytes_mut()).expect("an opening");
    }
    asked.answer
}

/// Takes a file whose name differs in the case of letters alone.
fn any_case(asked: Asked<'_>) -> Answer {
    if asked.answer.refusal() != 13 {
        return asked.answer;
    }
    let mut alike = contents(asked.before)
        .into_iter()
        .filter(|(name, content)| name.eq_ignore_ascii_case(NAME) && content.len() == 64);
    let given = &asked.arguments.timing;
    alike.next().map_or(asked.answer, |(_, content)| {
        by(&[34, 36, 37], &said(&content), given)
    })
}

/// Passes over a map that mend would mend.
fn map_not_checked(asked: Asked<'_>) -> Answer {
    let mut mended = asked.before.to_vec();
    if asked.answer.refusal() != 7 || tfs::mend(&mut mended).is_err() {
        return asked.answer;
    }
    let Timing { board, maker, .. } = asked.arguments.timing;
    let booted = timing::boot(&mended, board, maker);
    let number = booted.answer.err().map_or(0, |refusal| refusal.number);
    refused(number).valued(booted.values)
}

fn a_place_told(asked: Asked<'_>) -> Answer {
    match asked.answer.refusal() {
        number @ 34.. => Answer::of(&[number.into(), 1]),
        _ => asked.answer,
    }
}

const BOOTS: [(&str, Side); 18] = [
    wrong!(TimingBoot, board_only),
    wrong!(TimingBoot, maker_only),
    wrong!(TimingBoot, opened_last),
    wrong!(TimingBoot, opened_between),
    wrong!(TimingBoot, opened_not_tested),
    wrong!(TimingBoot, maker_first),
    wrong!(TimingBoot, swapped_numbers),
    wrong!(TimingBoot, given_0_is_34),
    wrong!(TimingBoot, numbers_turned),
    wrong!(TimingBoot, values_left),
    wrong!(TimingBoot, longer_booted),
    wrong!(TimingBoot, shorter_booted),
    wrong!(TimingBoot, little_endian),
    wrong!(TimingBoot, last_value_lost),
    wrong!(TimingBoot, boot_opens),
    wrong!(TimingBoot, any_case),
    wrong!(TimingBoot, map_not_checked),
    wrong!(TimingBoot, a_place_told),
];

#[test]
fn wrong_boots_are_found() {
    find(&BOOTS);
    told::tell_all(&BOOTS);
}

#[test]
fn promises_tell_wrong_boots_where_both_sides_agree() {
    let programs: [((&str, Side), &str); 10] = [
        (wrong!(TimingBoot, opened_not_tested), "none are stored"),
        (wrong!(TimingBoot, board_only), "other numbers"),
        (wrong!(TimingBoot, maker_only), "other numbers"),
        (wrong!(TimingBoot, values_left), "a refused boot has values"),
        (wrong!(TimingBoot, little_endian), "the stored values"),
        (wrong!(TimingBoot, last_value_lost), "the stored values"),
        (wrong!(TimingBoot, board_only), "what the file holds"),
        (wrong!(TimingBoot, longer_booted), "what the file holds"),
        (wrong!(TimingBoot, shorter_booted), "what the file holds"),
        (wrong!(TimingBoot, any_case), "what the file holds"),
    ];
    for (program, words) in programs {
        broken_in_history(program, words);
    }
}

#[test]
fn cuts_tell_wrong_boots_where_both_sides_agree() {
    for program in [
        wrong!(TimingBoot, opened_not_tested),
        wrong!(TimingBoot, board_only),
        wrong!(TimingBoot, little_endian),
    ] {
        broken_by_cut(program, "than the old values");
    }
}

/// A difference in a boot shows the numbers and both sides' values.
#[test]
fn a_difference_shows_numbers_and_values() {
    let (_, side) = wrong!(TimingBoot, last_value_lost);
    let told = found_in(" --only tfs", side).difference.to_string();
    assert!(told.contains("Timing {") && told.matches("    values [").count() == 2);
}
