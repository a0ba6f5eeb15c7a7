//! The comparison finds programs that read, write or replay traces wrongly.

mod lenient;
mod sought;

use compare::sides::reference;
use compare::{Answer, Found, Lent, Lents, Side};
use generate::Random;
use lenient::Number;
use reference::request::{Arguments, Request};
use reference::tfs;
use reference::trace::{read, read_all, replay, write_all, Draft, Record, Replayed};
use sought::{compared, found_in};

/// Finds a wrong program, by requests on volumes and traces alone.
fn found(side: Side) -> Found {
    found_in(" --only tfs", side)
}

const ALL: u64 = 0;
const MALFORMED: u64 = 1;
const DIFFERS: u64 = 2;

/// Answers for a trace that is taken in its own way where one is replayed, or a record read.
fn taken(
    request: Request,
    arguments: &Arguments,
    lents: &mut Lents,
    wrong: Request,
    number: Number,
) -> Answer {
    if request != wrong {
        return reference(request, arguments, lents);
    }
    let trace = lents.buffer.clone();
    let (mut arguments, mut bytes) = (arguments.clone(), trace.bytes().to_vec());
    let at = arguments.number as usize;
    if request == Request::TraceRead && at < bytes.len() {
        arguments.number = 0;
        bytes.drain(..at);
    }
    if request == Request::TfsReplay || read(trace.bytes(), at).is_none() {
        let bytes = lenient::rewritten(&bytes, number);
        lents.buffer = Lent::new(&mut Random::new(1), &bytes);
    } else {
        arguments.number = at as u32;
    }
    let answer = reference(request, &arguments, lents);
    lents.buffer = trace;
    answer
}

/// A program that reads numbers in its own way in one request.
macro_rules! taking {
    ($request:expr, $number:expr) => {
        |request, arguments, lents| taken(request, arguments, lents, $request, $number)
    };
}

#[test]
fn other_forms_of_numbers_replayed() {
    let wrong: [Side; 3] = [
        taking!(Request::TfsReplay, lenient::longer),
        taking!(Request::TfsReplay, lenient::longest),
        taking!(Request::TfsReplay, lenient::any_fifth),
    ];
    for side in wrong {
        let difference = found(side).difference;
        assert_eq!(difference.request, Request::TfsReplay);
        let [ours, theirs] = difference.answers;
        assert_eq!(theirs.words[2], MALFORMED);
        assert!(ours.words[2] != MALFORMED || ours.words[3] > theirs.words[3]);
    }
}

#[test]
fn other_forms_of_numbers_read() {
    let wrong: [Side; 3] = [
        taking!(Request::TraceRead, lenient::longer),
        taking!(Request::TraceRead, lenient::longest),
        taking!(Request::TraceRead, lenient::any_fifth),
    ];
    for side in wrong {
        let difference = found(side).difference;
        assert_eq!(difference.request, Request::TraceRead);
        let [ours, theirs] = difference.answers;
        assert_eq!(theirs, Answer::default());
        assert_ne!(ours.words[2], 0);
    }
}

/// Replays record by record on a volume that passes the check; a step tells whether to go on.
fn stepwise(
    request: Request,
    arguments: &Arguments,
    lents: &mut Lents,
    step: fn(&mut [u8], &[u8]) -> bool,
) -> Answer {
    let image = lents.image.bytes_mut();
    if request != Request::TfsReplay || tfs::check(image).is_err() {
        return reference(request, arguments, lents);
    }
    let trace = lents.buffer.bytes();
    let (mut at, mut number) = (0, 0);
    while at < trace.len() {
        number += 1;
        let Some((_, next)) = read(trace, at) else {
            return Answer::of(&[0, 0, MALFORMED, number]);
        };
        if !step(image, &trace[at..next]) {
            return Answer::of(&[0, 0, DIFFERS, number]);
        }
        at = next;
    }
    Answer::of(&[0, 0, ALL, number])
}

/// Replays one record as it should be.
fn right(image: &mut [u8], record: &[u8]) -> bool {
    replay(image, record) == Ok(Replayed::All(1))
}

/// The record of some bytes.
fn one(bytes: &[u8]) -> Record<'_> {
    read(bytes, 0).expect("a record").0
}

fn is_refused(record: &[u8]) -> bool {
    Draft::from(one(record)).entry.refusal != 0
}

#[test]
fn right_steps_are_no_difference() {
    let side: Side = |r, a, l| stepwise(r, a, l, right);
    let (tally, found) = compared("--seed 1 --cases 10000 --only tfs", side);
    assert!(found.is_none(), "{found:?}");
    assert!(tally.ended(DIFFERS as usize) > 50);
}

#[test]
fn a_differing_request_without_its_effect() {
    let difference = found(|r, a, l| {
        stepwise(r, a, l, |image, record| {
            let mut after = image.to_vec();
            let goes_on = right(&mut after, record);
            if goes_on {
                image.copy_from_slice(&after);
            }
            goes_on
        })
    })
    .difference;
    assert_eq!(difference.answers[0], difference.answers[1]);
    assert_eq!(difference.answers[0].words[2], DIFFERS);
    assert!(difference.at[0].is_some());
}

#[test]
fn an_expected_refusal_that_stops() {
    let difference = found(|r, a, l| {
        stepwise(r, a, l, |image, record| {
            right(image, record) && !is_refused(record)
        })
    })
    .difference;
    let [ours, theirs] = difference.answers;
    assert_eq!(ours.words[2], DIFFERS);
    assert!(theirs.words[2] == ALL || theirs.words[3] > ours.words[3]);
}

/// Takes any refusal for the one that is expected.
fn any_refusal(image: &mut [u8], record: &[u8]) -> bool {
    let mut draft = Draft::from(one(record));
    if draft.entry.refusal == 0 {
        return right(image, record);
    }
    let before = image.to_vec();
    (1..16).any(|number| {
        image.copy_from_slice(&before);
        draft.entry.refusal = number;
        let other = write_all(&[draft.record().expect("a record")]).expect("a trace");
        right(image, &other)
    })
}

#[test]
fn any_refusal_for_the_expected_one() {
    let difference = found(|r, a, l| stepwise(r, a, l, any_refusal)).difference;
    assert_eq!(difference.answers[1].words[2], DIFFERS);
    assert_ne!(
        difference.answers[0].words[2..],
        difference.answers[1].words[2..]
    );
}

/// Compares the bytes of a granted read in its own way.
fn read_by(image: &mut [u8], record: &[u8], same: fn(&[u8], &[u8]) -> bool) -> bool {
    let Record::Read {
        name,
        offset,
        length,
        expected: Ok(expected),
    } = one(record)
    else {
        return right(image, record);
    };
    let mut bytes = vec![0; length.min(65_024) as usize];
    match tfs::read(image, name, offset, &mut bytes) {
        Ok(read) => same(&bytes[..read.count as usize], expected),
        Err(_) => false,
    }
}

#[test]
fn bytes_compared_in_part() {
    let wrong: [Side; 4] = [
        |r, a, l| {
            stepwise(r, a, l, |image, record| {
                let shorter = |one: &[u8], two: &[u8]| one.iter().zip(two).all(|(a, b)| a == b);
                read_by(image, record, shorter)
            })
        },
        |r, a, l| {
            stepwise(r, a, l, |image, record| {
                read_by(image, record, |read, expected| read.starts_with(expected))
            })
        },
        |r, a, l| {
            stepwise(r, a, l, |image, record| {
                read_by(image, record, |read, expected| expected.starts_with(read))
            })
        },
        |r, a, l| {
            stepwise(r, a, l, |image, record| {
                read_by(image, record, |read, expected| read.len() == expected.len())
            })
        },
    ];
    for side in wrong {
        let [ours, theirs] = found(side).difference.answers;
        assert_eq!(theirs.words[2], DIFFERS);
        assert!(ours.words[2] != DIFFERS || ours.words[3] > theirs.words[3]);
    }
}

/// Takes any count of a granted write, or any number of free bytes.
fn any_number(image: &mut [u8], record: &[u8], kind: u32) -> bool {
    let granted = match one(record) {
        Record::Write {
            name,
            offset,
            expected: Ok(_),
            ..
        } => tfs::read(image, name, offset, &mut []).is_ok(),
        Record::FreeBytes { expected: Ok(_) } => true,
        _ => false,
    };
    right(image, record) || granted && one(record).kind() == kind
}

#[test]
fn numbers_not_compared() {
    let wrong: [Side; 2] = [
        |r, a, l| stepwise(r, a, l, |image, record| any_number(image, record, 4)),
        |r, a, l| stepwise(r, a, l, |image, record| any_number(image, record, 5)),
    ];
    for side in wrong {
        assert_eq!(found(side).difference.answers[1].words[2], DIFFERS);
    }
}

/// Answers a replay of a volume that passes the check by a program of its own, if that has an answer.
fn replaying(
    request: Request,
    arguments: &Arguments,
    lents: &mut Lents,
    answer: fn(&mut Lents) -> Option<Answer>,
) -> Answer {
    let sound = request == Request::TfsReplay && tfs::check(lents.image.bytes()).is_ok();
    match sound.then(|| answer(lents)).flatten() {
        Some(answer) => answer,
        None => reference(request, arguments, lents),
    }
}

/// The trace up to its first malformed record, and the number of that from 1.
fn before_malformed(trace: &[u8]) -> Option<(&[u8], u64)> {
    let malformed = read_all(trace).err()?;
    Some((&trace[..malformed.at], malformed.number as u64))
}

#[test]
fn records_numbered_from_0() {
    for outcome in [ALL, MALFORMED, DIFFERS] {
        let side: Side =
            [numbered::<ALL>, numbered::<MALFORMED>, numbered::<DIFFERS>][outcome as usize];
        let [ours, theirs] = found(side).difference.answers;
        assert_eq!(theirs.words[2], outcome);
        assert_eq!(ours.words[3] + 1, theirs.words[3]);
    }
}

/// Gives a number that is one less, with one of the outcomes.
fn numbered<const OUTCOME: u64>(
    request: Request,
    arguments: &Arguments,
    lents: &mut Lents,
) -> Answer {
    let mut answer = reference(request, arguments, lents);
    if request == Request::TfsReplay && answer.words[2] == OUTCOME {
        answer.words[3] = answer.words[3].saturating_sub(1);
    }
    answer
}

#[test]
fn malformed_records_found_before_anything_is_run() {
    let difference = found(|r, a, l| {
        replaying(r, a, l, |lents| {
            let (_, number) = before_malformed(lents.buffer.bytes())?;
            Some(Answer::of(&[0, 0, MALFORMED, number]))
        })
    })
    .difference;
    let differs = difference.answers[1].words[2] == DIFFERS;
    assert!(differs || difference.at[0].is_some());
}

#[test]
fn a_record_cut_off_that_is_run() {
    let difference = found(|r, a, l| {
        replaying(r, a, l, |lents| {
            let trace = lents.buffer.bytes();
            let (before, number) = before_malformed(trace)?;
            let mut image = lents.image.bytes().to_vec();
            if replay(&mut image, before) != Ok(Replayed::All(number as usize - 1)) {
                return None;
            }
            for answer in [&b"\0"[..], b"\0\0"] {
                let completed = [&trace[before.len()..], answer].concat();
                if read(&completed, 0).is_some() {
                    right(&mut image, &completed);
                }
            }
            lents.image.bytes_mut().copy_from_slice(&image);
            Some(Answer::of(&[0, 0, MALFORMED, number]))
        })
    })
    .difference;
    assert_eq!(difference.answers[0], difference.answers[1]);
    assert!(difference.at[0].is_some());
}

#[test]
fn a_record_cut_off_taken_for_the_end() {
    let difference = found(|r, a, l| {
        replaying(r, a, l, |lents| {
            let (before, number) = before_malformed(lents.buffer.bytes())?;
            let ended = replay(lents.image.bytes_mut(), before);
            let all = ended == Ok(Replayed::All(number as usize - 1));
            all.then(|| Answer::of(&[0, 0, ALL, number - 1]))
        })
    })
    .difference;
    assert_eq!(difference.answers[1].words[2], MALFORMED);
}

/// A record that lacks its last byte, which is the last of the bytes read, taken for a whole one.
#[test]
fn bytes_taken_past_the_end() {
    let difference = found(|r, a, l| {
        replaying(r, a, l, |lents| {
            let trace = lents.buffer.bytes();
            let (before, number) = before_malformed(trace)?;
            let completed = [&trace[before.len()..], b"\0"].concat();
            let (record, next) = read(&completed, 0)?;
            let taken = next == completed.len() && record.kind() == 3;
            let all = Ok(Replayed::All(number as usize - 1));
            let ended = taken && replay(&mut lents.image.bytes().to_vec(), before) == all;
            ended.then(|| Answer::of(&[0, 0, DIFFERS, number]))
        })
    })
    .difference;
    let outcomes = difference.answers.map(|answer| answer.words[2]);
    assert_eq!(outcomes, [DIFFERS, MALFORMED]);
}

#[test]
fn a_replay_that_goes_on_after_a_difference() {
    let difference = found(|r, a, l| {
        let answer = stepwise(r, a, l, right);
        if r == Request::TfsReplay && answer.words[..3] == [0, 0, DIFFERS] {
            let trace = l.buffer.bytes().to_vec();
            for part in generate::traces::records(&trace).split_off(answer.words[3] as usize) {
                right(l.image.bytes_mut(), &trace[part]);
            }
        }
        answer
    })
    .difference;
    assert_eq!(difference.answers[0], difference.answers[1]);
    assert!(difference.at[0].is_some());
}

#[test]
fn a_trace_before_the_check() {
    let wrong: [Side; 2] = [
        |r, a, l| match (r, before_malformed(l.buffer.bytes())) {
            (Request::TfsReplay, Some((b"", _))) => Answer::of(&[0, 0, MALFORMED, 1]),
            _ => reference(r, a, l),
        },
        |r, a, l| match (r, l.buffer.bytes()) {
            (Request::TfsReplay, b"") => Answer::default(),
            _ => reference(r, a, l),
        },
    ];
    for side in wrong {
        let [_, theirs] = found(side).difference.answers;
        assert!((1..8).contains(&theirs.refusal()));
        assert_eq!(theirs.words[2..4], [3, 0]);
    }
}

#[test]
fn a_refused_replay_that_tells_a_number() {
    let [ours, theirs] = found(|r, a, l| {
        let mut answer = reference(r, a, l);
        if r == Request::TfsReplay && answer.refusal() != 0 {
            answer.words[3] = 1;
        }
        answer
    })
    .difference
    .answers;
    assert_eq!([ours.words[3], theirs.words[3]], [1, 0]);
}

/// Writes a record into a buffer that has room, and gives the bytes.
fn written(arguments: &Arguments) -> Option<Vec<u8>> {
    let draft = Draft {
        entry: arguments.entry,
        name: &arguments.name,
        bytes: &arguments.buffer,
    };
    let mut out = vec![0; 40 + draft.name.len() + draft.bytes.len()];
    let length = draft.write(&mut out).ok()?;
    out.truncate(length);
    Some(out)
}

#[test]
fn a_refused_record_written_in_part() {
    let difference = found(|r, a, l| {
        let answer = reference(r, a, l);
        if (r, answer.refusal()) == (Request::TraceWrite, 33) {
            let out = l.image.bytes_mut();
            let bytes = written(a).unwrap_or_default();
            let count = out.len().min(bytes.len());
            out[..count].copy_from_slice(&bytes[..count]);
        }
        answer
    })
    .difference;
    assert_eq!(difference.answers.map(|answer| answer.refusal()), [33; 2]);
    assert!(difference.at[0].is_some());
}

#[test]
fn a_record_that_fits_exactly_refused() {
    let [ours, theirs] = found(|r, a, l| match r {
        Request::TraceWrite
            if written(a).map(|bytes| bytes.len()) == Some(l.image.bytes().len()) =>
        {
            Answer::of(&[33])
        }
        _ => reference(r, a, l),
    })
    .difference
    .answers;
    assert_eq!([ours.refusal(), theirs.refusal()], [33, 0]);
}

#[test]
fn a_record_written_over_the_rest() {
    let difference = found(|r, a, l| {
        let answer = reference(r, a, l);
        if (r, answer.refusal()) == (Request::TraceWrite, 0) {
            l.image.bytes_mut()[answer.value() as usize..].fill(0);
        }
        answer
    })
    .difference;
    assert_eq!(difference.answers[0], difference.answers[1]);
    assert!(difference.at[0].is_some());
}

/// Writes the record of other numbers.
fn written_as(
    request: Request,
    arguments: &Arguments,
    lents: &mut Lents,
    other: fn(u64) -> u64,
) -> Answer {
    let mut arguments = arguments.clone();
    let entry = &mut arguments.entry;
    entry.size = other(entry.size);
    entry.offset = other(entry.offset);
    entry.length = other(entry.length);
    entry.refusal = other(entry.refusal);
    entry.value = other(entry.value);
    reference(request, &arguments, lents)
}

#[test]
fn numbers_too_large_cut_to_size() {
    let wrong: [Side; 2] = [
        |r, a, l| written_as(r, a, l, |number| number & 0xFFFF_FFFF),
        |r, a, l| written_as(r, a, l, |number| number.min(0xFFFF_FFFF)),
    ];
    for side in wrong {
        let answers = found(side).difference.answers;
        assert_eq!(answers.map(|answer| answer.refusal()), [0, 33]);
    }
}

#[test]
fn numbers_of_no_use_refused() {
    let [ours, theirs] = found(|r, a, l| {
        let entry = a.entry;
        let numbers = [
            entry.size,
            entry.offset,
            entry.length,
            entry.refusal,
            entry.value,
        ];
        match numbers.iter().any(|number| number >> 32 != 0) {
            true => Answer::of(&[33]),
            false => reference(r, a, l),
        }
    })
    .difference
    .answers;
    assert_eq!([ours.refusal(), theirs.refusal()], [33, 0]);
}

#[test]
fn positions_given_wrongly() {
    // Where the name, the bytes and the next record begin.
    for index in [8, 10, 12] {
        let side: Side = match index {
            8 => misplaced::<8>,
            10 => misplaced::<10>,
            _ => misplaced::<12>,
        };
        assert_eq!(found(side).difference.request, Request::TraceRead);
    }
}

fn misplaced<const INDEX: usize>(
    request: Request,
    arguments: &Arguments,
    lents: &mut Lents,
) -> Answer {
    let mut answer = reference(request, arguments, lents);
    if request == Request::TraceRead && answer.words[INDEX] != 0 {
        answer.words[INDEX] += 1;
    }
    answer
}

#[test]
fn records_read_past_the_end() {
    let found = found(|r, a, l| match r {
        Request::TraceRead if a.number as usize >= l.buffer.bytes().len() => {
            Answer::of(&[0, 0, 5, 0, 0, 0, 7, 0, 0, 0, 0, 0, a.number.into()])
        }
        _ => reference(r, a, l),
    });
    assert_eq!(found.difference.answers[1], Answer::default());
}
