//! The comparison finds programs that give wrong stores, and so do the stored cases.

mod sought;
mod told;

use compare::sides::{proved, reference};
use compare::{Answer, Lents, Side};
use generate::cases::stored;
use reference::request::{Arguments, Request};
use sought::{compared, found_in};
use told::{tell, tell_all};

const CREATE: Request = Request::TfsCreateStore;
const REMOVE: Request = Request::TfsRemoveStore;
const WRITE: Request = Request::TfsWriteStore;

fn is_store(request: Request) -> bool {
    stored(request).is_some()
}

fn refused_32() -> Answer {
    Answer::of(&[32])
}

/// Asks the reference for a store of another number.
fn with_k(request: Request, arguments: &Arguments, lents: &mut Lents, k: usize) -> Answer {
    let arguments = Arguments {
        k,
        ..arguments.clone()
    };
    reference(request, &arguments, lents)
}

/// The number of stores of a request that is granted, and of any other 0.
fn count(request: Request, arguments: &Arguments, lents: &Lents) -> usize {
    let granted = |k: &usize| {
        let mut lents = lents.clone();
        let arguments = Arguments {
            buffer: vec![0; 512],
            k: *k,
            ..arguments.clone()
        };
        let room = compare::Lent::new(&mut generate::Random::new(0), &arguments.buffer);
        lents.buffer = room;
        reference(request, &arguments, &mut lents).refusal() == 0
    };
    (1..).take_while(granted).count()
}

/// Gives the stores of one request in another order: which is told by k and the last.
fn ordered(
    request: Request,
    arguments: &Arguments,
    lents: &mut Lents,
    wrong: Request,
    order: fn(usize, usize) -> usize,
) -> Answer {
    if request != wrong {
        return reference(request, arguments, lents);
    }
    let last = count(request, arguments, lents);
    let k = match arguments.k {
        k if (1..=last).contains(&k) => order(k, last),
        k => k,
    };
    with_k(request, arguments, lents, k)
}

/// Exchanges two numbers.
fn swapped(k: usize, one: usize, other: usize) -> usize {
    match k {
        _ if k == one => other,
        _ if k == other => one,
        _ => k,
    }
}

fn directory_before_map(request: Request, arguments: &Arguments, lents: &mut Lents) -> Answer {
    let order = |k, last| swapped(k, last, last - 1);
    ordered(request, arguments, lents, CREATE, order)
}

fn map_before_directory(request: Request, arguments: &Arguments, lents: &mut Lents) -> Answer {
    ordered(request, arguments, lents, REMOVE, |k, _| 3 - k)
}

fn inode_before_content(request: Request, arguments: &Arguments, lents: &mut Lents) -> Answer {
    let order = |k, last| match k {
        1 => last - 2,
        _ if k <= last - 2 => k - 1,
        _ => k,
    };
    ordered(request, arguments, lents, CREATE, order)
}

fn map_before_inode(request: Request, arguments: &Arguments, lents: &mut Lents) -> Answer {
    let order = |k, last| swapped(k, last - 1, last - 2);
    ordered(request, arguments, lents, CREATE, order)
}

fn content_backwards(request: Request, arguments: &Arguments, lents: &mut Lents) -> Answer {
    let order = |k, last| if k <= last - 3 { last - 2 - k } else { k };
    ordered(request, arguments, lents, CREATE, order)
}

fn write_backwards(request: Request, arguments: &Arguments, lents: &mut Lents) -> Answer {
    ordered(request, arguments, lents, WRITE, |k, last| last + 1 - k)
}

fn k_from_0(request: Request, arguments: &Arguments, lents: &mut Lents) -> Answer {
    match is_store(request) {
        true => with_k(request, arguments, lents, arguments.k.wrapping_add(1)),
        false => reference(request, arguments, lents),
    }
}

fn k_of_32_bits(request: Request, arguments: &Arguments, lents: &mut Lents) -> Answer {
    match is_store(request) {
        true => with_k(request, arguments, lents, arguments.k as u32 as usize),
        false => reference(request, arguments, lents),
    }
}

fn k_0_is_the_first(request: Request, arguments: &Arguments, lents: &mut Lents) -> Answer {
    match is_store(request) {
        true => with_k(request, arguments, lents, arguments.k.max(1)),
        false => reference(request, arguments, lents),
    }
}

/// The last store again for the k behind it.
fn one_store_too_many(request: Request, arguments: &Arguments, lents: &mut Lents) -> Answer {
    if !is_store(request) {
        return reference(request, arguments, lents);
    }
    let last = count(request, arguments, lents);
    let k = match arguments.k {
        k if k == last + 1 => last,
        k => k,
    };
    with_k(request, arguments, lents, k)
}

/// Changes what a granted store has given.
fn with_block(
    request: Request,
    arguments: &Arguments,
    lents: &mut Lents,
    change: fn(&mut [u8], &[u8]),
) -> Answer {
    let answer = reference(request, arguments, lents);
    if is_store(request) && answer.refusal() == 0 {
        let at = 512 * answer.value() as usize;
        let old = lents.image.bytes()[at..at + 512].to_vec();
        change(lents.buffer.bytes_mut(), &old);
    }
    answer
}

fn old_bytes(request: Request, arguments: &Arguments, lents: &mut Lents) -> Answer {
    with_block(request, arguments, lents, |buffer, old| {
        buffer[..512].copy_from_slice(old);
    })
}

fn rest_cleared(request: Request, arguments: &Arguments, lents: &mut Lents) -> Answer {
    with_block(request, arguments, lents, |buffer, _| {
        buffer[512..].fill(0);
    })
}

/// A write's block with zeros where the bytes do not lie.
fn zeros_around(request: Request, arguments: &Arguments, lents: &mut Lents) -> Answer {
    if request != WRITE {
        return reference(request, arguments, lents);
    }
    with_block(request, arguments, lents, |buffer, old| {
        let kept = buffer.iter_mut().zip(old);
        kept.filter(|(new, old)| *new == *old)
            .for_each(|(new, _)| *new = 0);
    })
}

/// Leaves out the stores of blocks that stay as they are.
fn unchanged_left_out(request: Request, arguments: &Arguments, lents: &mut Lents) -> Answer {
    let last = match is_store(request) {
        true => count(request, arguments, lents),
        false => 0,
    };
    if !(1..=last).contains(&arguments.k) {
        return reference(request, arguments, lents);
    }
    let changes = |k: &usize| {
        let mut lents = lents.clone();
        let answer = with_k(request, arguments, &mut lents, *k);
        let at = 512 * answer.value() as usize;
        let block = lents.buffer.bytes().get(..512);
        block.is_none_or(|block| block != &lents.image.bytes()[at..at + 512])
    };
    let kth = (1..=last).filter(changes).nth(arguments.k - 1);
    with_k(request, arguments, lents, kth.unwrap_or(0))
}

fn refused_32_first(request: Request, arguments: &Arguments, lents: &mut Lents) -> Answer {
    let short = arguments.buffer.len() < 512;
    match is_store(request) && (arguments.k == 0 || short) {
        true => refused_32(),
        false => reference(request, arguments, lents),
    }
}

/// Refuses with 32 what the check does not refuse, before the other refusals.
fn refused_32_behind_the_check(
    request: Request,
    arguments: &Arguments,
    lents: &mut Lents,
) -> Answer {
    let answer = reference(request, arguments, lents);
    let wrong = is_store(request) && arguments.k == 0 && answer.refusal() > 7;
    match wrong {
        true => refused_32(),
        false => answer,
    }
}

/// Gives as much of the block as a short buffer holds.
fn a_part_in_a_short_buffer(request: Request, arguments: &Arguments, lents: &mut Lents) -> Answer {
    let answer = reference(request, arguments, lents);
    let short = is_store(request) && arguments.buffer.len() < 512;
    if short && answer.refusal() == 32 && arguments.k > 0 {
        lents.buffer.bytes_mut().fill(0);
    }
    answer
}

/// Counts the blocks of a write by the length of the bytes, also past the file's end.
fn by_the_length_of_the_bytes(
    request: Request,
    arguments: &Arguments,
    lents: &mut Lents,
) -> Answer {
    let answer = reference(request, arguments, lents);
    let Arguments { number, k, .. } = *arguments;
    let end = number as usize + arguments.bytes.len();
    let last = end.div_ceil(512).saturating_sub(number as usize / 512);
    let wrong = request == WRITE && answer.refusal() == 32 && (1..=last).contains(&k);
    match wrong && arguments.buffer.len() >= 512 {
        true => Answer::of(&[0, 0, 3]),
        false => answer,
    }
}

/// Makes the request too.
fn makes_the_request(request: Request, arguments: &Arguments, lents: &mut Lents) -> Answer {
    let answer = reference(request, arguments, lents);
    if let (REMOVE, 0) = (request, answer.refusal()) {
        reference(Request::TfsRemove, arguments, lents);
    }
    answer
}

/// Tells the number of blocks beside the number of the block.
fn blocks_told(request: Request, arguments: &Arguments, lents: &mut Lents) -> Answer {
    let answer = reference(request, arguments, lents);
    match is_store(request) && answer.refusal() == 0 {
        true => Answer::of(&[0, 0, answer.words[2], 1]),
        false => answer,
    }
}

const WRONG: [(&str, Side); 19] = [
    ("directory before map", directory_before_map),
    ("map before directory", map_before_directory),
    ("inode before content", inode_before_content),
    ("map before inode", map_before_inode),
    ("content backwards", content_backwards),
    ("write backwards", write_backwards),
    ("k from 0", k_from_0),
    ("k of 32 bits", k_of_32_bits),
    ("k 0 is the first", k_0_is_the_first),
    ("one store too many", one_store_too_many),
    ("old bytes", old_bytes),
    ("rest cleared", rest_cleared),
    ("zeros around", zeros_around),
    ("unchanged left out", unchanged_left_out),
    ("32 first", refused_32_first),
    ("32 behind the check", refused_32_behind_the_check),
    ("a part in a short buffer", a_part_in_a_short_buffer),
    ("by the length of the bytes", by_the_length_of_the_bytes),
    ("makes the request", makes_the_request),
];

#[test]
fn wrong_stores_are_found() {
    for (what, side) in WRONG {
        let found = found_in(" --only tfs", side);
        let request = found.difference.request;
        assert!(is_store(request), "{what}: {request:?}");
        assert!(found.image < 120, "{what} on image {} only", found.image);
    }
}

#[test]
fn blocks_told_with_a_store() {
    let found = found_in(" --only tfs", blocks_told);
    assert!(is_store(found.difference.request));
}

#[test]
fn stored_cases_tell_wrong_stores() {
    tell_all(&WRONG);
    assert!(!tell(reference));
    assert!(!tell(proved));
}

/// With the right order the program that gives wrong ones is not found.
#[test]
fn a_right_order_is_not_found() {
    fn right(request: Request, arguments: &Arguments, lents: &mut Lents) -> Answer {
        match is_store(request) {
            true => ordered(request, arguments, lents, request, |k, _| k),
            false => reference(request, arguments, lents),
        }
    }
    let (_, found) = compared("--seed 1 --cases 10000 --only tfs", right);
    assert!(found.is_none(), "{found:?}");
}
