//! The comparison finds programs that store wrongly in the timing file or open the lid wrongly, also
//! where both sides do so in the same way.

mod sought;
mod timed;
mod told;

use compare::sides::{proved, reference};
use compare::{Answer, LentValues, Lents, Side};
use generate::timing::{held, NAME};
use generate::Random;
use reference::request::{Arguments, Request};
use reference::tfs;
use reference::timing::{self, Timing};
use sought::{compared, found_in};
use timed::{answered, broken_in_history, file, find, granted, refused, Asked};

fn grants_board_0(asked: Asked<'_>) -> Answer {
    if asked.answer.refusal() != 34 {
        return asked.answer;
    }
    let timing = Timing {
        board: 1,
        ..asked.arguments.timing
    };
    let image = asked.lents.image.bytes_mut();
    match timing::store(image, &timing).and_then(|()| timing::open_lid(image)) {
        Ok(()) => granted(),
        Err(refusal) => refused(refusal.number),
    }
}

fn takes_another_size(asked: Asked<'_>) -> Answer {
    if asked.answer.refusal() != 35 {
        return asked.answer;
    }
    let image = asked.lents.image.bytes_mut();
    tfs::write(image, NAME, 0, &asked.arguments.timing.bytes()).expect("a write");
    granted()
}

/// Gives another size the file's own: the file goes and comes again.
fn another_size_made_anew(asked: Asked<'_>) -> Answer {
    let image = asked.lents.image.bytes_mut();
    if asked.answer.refusal() == 35 && tfs::remove(image, NAME).is_ok() {
        timing::store(image, &asked.arguments.timing).ok();
        return granted();
    }
    asked.answer
}

fn size_before_board(asked: Asked<'_>) -> Answer {
    let other = file(asked.before).is_some_and(|file| file.size != 64);
    match asked.answer.refusal() {
        34 if other => refused(35),
        _ => asked.answer,
    }
}

fn room_before_board(asked: Asked<'_>) -> Answer {
    let timing = Timing {
        board: 1,
        ..asked.arguments.timing
    };
    let stored = timing::store(&mut asked.before.to_vec(), &timing);
    match (asked.answer.refusal(), stored) {
        (34, Err(refusal)) => refused(refusal.number),
        _ => asked.answer,
    }
}

/// Asks for a slot and room though the file stands.
fn needs_room_anyway(mut asked: Asked<'_>) -> Answer {
    let other = tfs::create(&mut asked.before.to_vec(), b"some other name", 64);
    match (asked.answer.refusal(), other) {
        (0, Err(refusal)) => {
            asked.restore();
            refused(refusal.number)
        }
        _ => asked.answer,
    }
}

fn feigned(mut asked: Asked<'_>) -> Answer {
    if file(asked.before).is_some() {
        asked.restore();
    }
    asked.answer
}

fn numbers_alone(asked: Asked<'_>) -> Answer {
    let stands = file(asked.before).is_some();
    asked.with_block(|block, old| {
        if stands {
            block[8..64].copy_from_slice(&old[8..64]);
        }
    })
}

fn values_alone(asked: Asked<'_>) -> Answer {
    let stands = file(asked.before).is_some();
    asked.with_block(|block, old| {
        if stands {
            block[..8].copy_from_slice(&old[..8]);
        }
    })
}

fn values_turned(asked: Asked<'_>) -> Answer {
    asked.with_block(|block, _| {
        block[8..64].chunks_mut(2).for_each(<[u8]>::reverse);
    })
}

fn maker_before_board(asked: Asked<'_>) -> Answer {
    asked.with_block(|block, _| block[..8].rotate_left(4))
}

fn zeros_behind(asked: Asked<'_>) -> Answer {
    asked.with_block(|block, _| block[64..].fill(0))
}

/// Leaves what stood behind the 64 bytes of a new file.
fn noise_behind(asked: Asked<'_>) -> Answer {
    let created = file(asked.before).is_none();
    asked.with_block(|block, old| {
        if created {
            block[64..].copy_from_slice(&old[64..]);
        }
    })
}

fn removed_first(asked: Asked<'_>) -> Answer {
    if asked.answer.refusal() == 0 && file(asked.before).is_some() {
        let image = asked.lents.image.bytes_mut();
        tfs::remove(image, NAME).expect("a remove");
        timing::store(image, &asked.arguments.timing).expect("a store");
    }
    asked.answer
}

fn refuses_opened(mut asked: Asked<'_>) -> Answer {
    let stands = file(asked.before).is_some();
    let opened = stands && held(asked.before).is_some_and(|held| held.board == 0);
    match asked.answer.refusal() {
        0 if opened => {
            asked.restore();
            refused(34)
        }
        _ => asked.answer,
    }
}

fn refused_and_created(asked: Asked<'_>) -> Answer {
    if asked.answer.refusal() == 34 {
        tfs::create(asked.lents.image.bytes_mut(), NAME, 64).ok();
    }
    asked.answer
}

fn inode_told(asked: Asked<'_>) -> Answer {
    let stored = file(asked.lents.image.bytes()).filter(|_| asked.answer.refusal() == 0);
    stored.map_or(asked.answer, |file| Answer::of(&[0, 0, file.inode.into()]))
}

const STORES: [(&str, Side); 17] = [
    wrong!(TimingStore, grants_board_0),
    wrong!(TimingStore, takes_another_size),
    wrong!(TimingStore, another_size_made_anew),
    wrong!(TimingStore, size_before_board),
    wrong!(TimingStore, room_before_board),
    wrong!(TimingStore, needs_room_anyway),
    wrong!(TimingStore, feigned),
    wrong!(TimingStore, numbers_alone),
    wrong!(TimingStore, values_alone),
    wrong!(TimingStore, values_turned),
    wrong!(TimingStore, maker_before_board),
    wrong!(TimingStore, zeros_behind),
    wrong!(TimingStore, noise_behind),
    wrong!(TimingStore, removed_first),
    wrong!(TimingStore, refuses_opened),
    wrong!(TimingStore, refused_and_created),
    wrong!(TimingStore, inode_told),
];

fn file_removed(asked: Asked<'_>) -> Answer {
    if asked.answer.refusal() == 0 {
        tfs::remove(asked.lents.image.bytes_mut(), NAME).expect("a remove");
    }
    asked.answer
}

fn whole_file_zeroed(asked: Asked<'_>) -> Answer {
    asked.with_block(|block, _| block[..64].fill(0))
}

fn both_numbers_zeroed(asked: Asked<'_>) -> Answer {
    asked.with_block(|block, _| block[..8].fill(0))
}

fn maker_zeroed(asked: Asked<'_>) -> Answer {
    asked.with_block(|block, old| {
        block[..4].copy_from_slice(&old[..4]);
        block[4..8].fill(0);
    })
}

fn another_mark(asked: Asked<'_>) -> Answer {
    asked.with_block(|block, _| block[..4].fill(0xFF))
}

fn one_byte_zeroed(asked: Asked<'_>) -> Answer {
    asked.with_block(|block, old| {
        block[1..4].copy_from_slice(&old[1..4]);
    })
}

fn absent_granted(asked: Asked<'_>) -> Answer {
    match asked.answer.refusal() {
        13 => granted(),
        _ => asked.answer,
    }
}

fn opens_another_size(asked: Asked<'_>) -> Answer {
    if asked.answer.refusal() != 35 {
        return asked.answer;
    }
    tfs::write(asked.lents.image.bytes_mut(), NAME, 0, &[0; 4]).expect("a write");
    granted()
}

const OPENINGS: [(&str, Side); 10] = [
    wrong!(TimingOpenLid, file_removed),
    wrong!(TimingOpenLid, whole_file_zeroed),
    wrong!(TimingOpenLid, both_numbers_zeroed),
    wrong!(TimingOpenLid, maker_zeroed),
    wrong!(TimingOpenLid, another_mark),
    wrong!(TimingOpenLid, one_byte_zeroed),
    wrong!(TimingOpenLid, feigned),
    wrong!(TimingOpenLid, refuses_opened),
    wrong!(TimingOpenLid, absent_granted),
    wrong!(TimingOpenLid, opens_another_size),
];

#[test]
fn wrong_stores_are_found() {
    find(&STORES);
    told::tell_all(&STORES);
}

#[test]
fn wrong_openings_are_found() {
    find(&OPENINGS);
    told::tell_all(&OPENINGS);
}

#[test]
fn promises_tell_wrong_changes_where_both_sides_agree() {
    let programs: [((&str, Side), &str); 6] = [
        (wrong!(TimingOpenLid, feigned), "none are stored"),
        (wrong!(TimingOpenLid, one_byte_zeroed), "none are stored"),
        (wrong!(TimingOpenLid, maker_zeroed), "none are stored"),
        (wrong!(TimingStore, feigned), "the stored values"),
        (wrong!(TimingStore, numbers_alone), "the stored values"),
        (wrong!(TimingStore, values_turned), "the stored values"),
    ];
    for (program, words) in programs {
        broken_in_history(program, words);
    }
}

/// A program that takes a request apart as the wrong ones do, and answers rightly, is not found.
#[test]
fn a_right_program_is_not_found() {
    fn right(request: Request, arguments: &Arguments, lents: &mut Lents) -> Answer {
        answered((request, request), arguments, lents, |asked| asked.answer)
    }
    let (_, found) = compared("--seed 1 --cases 10000 --only tfs", right);
    assert!(found.is_none(), "{found:?}");
}

#[test]
fn a_store_that_changes_what_stands_around_its_values() {
    let found = found_in(" --only tfs", |request, arguments, lents| {
        let answer = reference(request, arguments, lents);
        if request == Request::TimingStore {
            let values = lents.values.values();
            lents.values = LentValues::new(&mut Random::new(1), values);
        }
        answer
    });
    assert_eq!(found.difference.request, Request::TimingStore);
    assert!(found.difference.at[4].is_some_and(|at| at < 0));
}

#[test]
fn the_proved_requests_are_not_found() {
    let (tally, found) = compared("--seed 9 --cases 30000 --only tfs", proved);
    assert!(found.is_none(), "{found:?}");
    for number in [34, 35, 36, 37] {
        assert!(tally.seen(number) > 100);
    }
}
