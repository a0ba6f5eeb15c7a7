//! The comparison finds programs that take a name for another, or look it up at a wrong time.

mod sought;

use std::cell::RefCell;
use std::collections::{HashMap, HashSet};

use compare::sides::reference;
use compare::{Answer, Lents, Side};
use reference::request::{Arguments, Request};
use reference::tfs::{self, Listing};
use sought::{compared, found};

/// Answers for another name, if that makes one, where a read or a write is refused its own.
fn renamed(
    request: Request,
    arguments: &Arguments,
    lents: &mut Lents,
    other: fn(&[u8]) -> Option<Vec<u8>>,
) -> Answer {
    let answer = reference(request, arguments, lents);
    let transfer = matches!(request, Request::TfsRead | Request::TfsWrite);
    match other(&arguments.name) {
        Some(name) if transfer && matches!(answer.refusal(), 8 | 13) => {
            let arguments = Arguments {
                name,
                ..arguments.clone()
            };
            reference(request, &arguments, lents)
        }
        _ => answer,
    }
}

fn in_other_case(name: &[u8]) -> Option<Vec<u8>> {
    let change = |byte: &u8| match byte.is_ascii_alphabetic() {
        true => byte ^ 0x20,
        false => *byte,
    };
    Some(name.iter().map(change).collect())
}

fn without_last_byte(name: &[u8]) -> Option<Vec<u8>> {
    name.split_last().map(|(_, rest)| rest.to_vec())
}

fn up_to_its_zero(name: &[u8]) -> Option<Vec<u8>> {
    let zero = name.iter().position(|byte| *byte == 0)?;
    Some(name[..zero].to_vec())
}

fn up_to_15_bytes(name: &[u8]) -> Option<Vec<u8>> {
    (name.len() > 15).then(|| name[..15].to_vec())
}

#[test]
fn names_taken_for_others() {
    let wrong: [Side; 4] = [
        |request, arguments, lents| renamed(request, arguments, lents, in_other_case),
        |request, arguments, lents| renamed(request, arguments, lents, without_last_byte),
        |request, arguments, lents| renamed(request, arguments, lents, up_to_its_zero),
        |request, arguments, lents| renamed(request, arguments, lents, up_to_15_bytes),
    ];
    for side in wrong {
        let [ours, theirs] = found(side).difference.answers;
        assert!(ours.refusal() != theirs.refusal());
        assert!(matches!(theirs.refusal(), 8 | 13));
    }
}

#[test]
fn an_offset_refused_before_a_name() {
    let wrong: [(u32, Side); 2] = [(8, offset_before::<8>), (13, offset_before::<13>)];
    for (number, side) in wrong {
        let answers = found(side).difference.answers;
        assert_eq!(answers.map(|answer| answer.refusal()), [15, number]);
    }
}

/// Refuses an offset that no file has before a refusal of the name.
fn offset_before<const NUMBER: u32>(
    request: Request,
    arguments: &Arguments,
    lents: &mut Lents,
) -> Answer {
    let answer = reference(request, arguments, lents);
    let transfer = matches!(request, Request::TfsRead | Request::TfsWrite);
    if transfer && answer.refusal() == NUMBER && arguments.number > 65_024 {
        return Answer::of(&[15]);
    }
    answer
}

thread_local! {
    /// The inode number that the first create of a name gave.
    static KEPT: RefCell<HashMap<Vec<u8>, u32>> = RefCell::default();
}

/// The name of the file that has the inode number which a name had at first.
fn name_now(image: &[u8], name: &[u8]) -> Option<Vec<u8>> {
    let kept = KEPT.with_borrow(|kept| kept.get(name).copied())?;
    (0..25).find_map(|slot| match tfs::list(image, slot) {
        Ok(Listing::Used { name, inode, .. }) if inode == kept => Some(name.to_vec()),
        _ => None,
    })
}

/// Looks a name up at its first create, and later only to see whether it stands, or not even that.
fn looked_up_once<const EVEN_GONE: bool>(
    request: Request,
    arguments: &Arguments,
    lents: &mut Lents,
) -> Answer {
    let mut arguments = arguments.clone();
    let image = lents.image.bytes();
    let stands = tfs::read(image, &arguments.name, 0, &mut []).is_ok();
    if matches!(request, Request::TfsRead | Request::TfsWrite) && (stands || EVEN_GONE) {
        let now = name_now(image, &arguments.name);
        arguments.name = now.unwrap_or(arguments.name);
    }
    let answer = reference(request, &arguments, lents);
    if (request, answer.refusal()) == (Request::TfsCreate, 0) {
        let keep = |kept: &mut HashMap<_, _>| *kept.entry(arguments.name).or_insert(answer.value());
        KEPT.with_borrow_mut(keep);
    }
    answer
}

/// The refusals that a program and the reference give where they differ first on an image.
fn differences(side: Side) -> HashSet<[u32; 2]> {
    let on_image = |image: u32| {
        KEPT.take();
        let words = format!("--seed 1 --only tfs --image {image}");
        let (_, found) = compared(&words, side);
        found.map(|found| found.difference.answers.map(|answer| answer.refusal()))
    };
    (0..400).filter_map(on_image).collect()
}

#[test]
fn inode_numbers_kept_over_a_remove() {
    let seen = differences(looked_up_once::<true>);
    assert!(
        seen.contains(&[0, 13]) && seen.contains(&[15, 13]),
        "{seen:?}"
    );
    let seen = differences(looked_up_once::<false>);
    for answers in [[0, 0], [0, 15], [15, 0]] {
        assert!(seen.contains(&answers), "{answers:?} {seen:?}");
    }
}
