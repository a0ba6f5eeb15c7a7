//! The comparison finds programs that look at leftovers, or do not keep them as they should.

mod sought;

use std::ops::Range;

use compare::sides::reference;
use compare::{Answer, Lents, Side};
use generate::cases::fnv1a;
use generate::tfs::{has_leftovers, leftovers};
use reference::request::{Arguments, Request, CHECKING};
use reference::tfs::{self, Listing, SLOTS};
use sought::found;

/// Where the 20 bytes of a slot lie.
fn bytes(slot: usize) -> Range<usize> {
    1024 + 20 * slot..1044 + 20 * slot
}

/// The slot of a name, if the volume is consistent and the name stands.
fn slot_of(image: &[u8], name: &[u8]) -> Option<usize> {
    let has_name = |slot: &usize| match tfs::list(image, *slot as u32) {
        Ok(Listing::Used { name: other, .. }) => other == name,
        _ => false,
    };
    (0..SLOTS).find(has_name)
}

#[test]
fn names_sought_over_16_bytes() {
    let found = found(|request, arguments, lents| {
        let sought = [Request::TfsRead, Request::TfsWrite, Request::TfsRemove].contains(&request);
        let image = lents.image.bytes();
        let slot = slot_of(image, &arguments.name).filter(|_| sought);
        if slot.is_some_and(|slot| has_leftovers(image, slot)) {
            return Answer::of(&[13]);
        }
        reference(request, arguments, lents)
    });
    let [ours, theirs] = found.difference.answers;
    assert_eq!(ours.refusal(), 13);
    assert!(matches!(theirs.refusal(), 0 | 15));
}

/// Checks a volume whose slots are taken for others.
fn misread(
    request: Request,
    arguments: &Arguments,
    lents: &mut Lents,
    taken_for: fn(&mut [u8]),
) -> Answer {
    if CHECKING.contains(&request) && lents.image.bytes().len() >= 1536 {
        let mut misread = lents.clone();
        let slots = misread.image.bytes_mut()[1024..1524].chunks_mut(20);
        slots.for_each(taken_for);
        let checked = reference(Request::TfsCheck, arguments, &mut misread);
        if request == Request::TfsCheck || checked.refusal() != 0 {
            return checked;
        }
    }
    reference(request, arguments, lents)
}

/// A slot with inode number 0 for a free one, whatever its name.
fn free_by_inode(slot: &mut [u8]) {
    if slot[..4] == [0; 4] {
        slot.fill(0);
    }
}

/// A slot with an empty name for a free one, whatever its inode number.
fn free_by_name(slot: &mut [u8]) {
    if slot[4] == 0 {
        slot.fill(0);
    }
}

/// A name with other leftovers for another name.
fn named_by_16_bytes(slot: &mut [u8]) {
    let name = &mut slot[4..];
    if name[0] != 0 && name.contains(&0) {
        let hash = fnv1a(&*name).to_be_bytes();
        name.fill(0);
        name[..8].copy_from_slice(&hash.map(|byte| byte | 1));
    }
}

/// A slot with leftovers for one that is neither free nor used.
fn unsound_by_leftovers(slot: &mut [u8]) {
    let mut behind = slot[4..].iter().skip_while(|byte| **byte != 0);
    if behind.any(|byte| *byte != 0) {
        slot.fill(0xFF);
    }
}

/// A name without an end for one that ends behind its 15th byte.
fn ended_by_force(slot: &mut [u8]) {
    slot[19] = 0;
}

#[test]
fn slots_taken_for_others() {
    // A wrong program, and whether it refuses less or more than it should.
    let wrong: [(Side, bool); 5] = [
        (|r, a, l| misread(r, a, l, free_by_inode), true),
        (|r, a, l| misread(r, a, l, free_by_name), true),
        (|r, a, l| misread(r, a, l, named_by_16_bytes), true),
        (|r, a, l| misread(r, a, l, ended_by_force), true),
        (|r, a, l| misread(r, a, l, unsound_by_leftovers), false),
    ];
    for (side, less) in wrong {
        let [ours, theirs] = found(side).difference.answers;
        let refused = if less { theirs } else { ours };
        assert_eq!(refused.refusal(), 4);
        assert_ne!(ours, theirs);
    }
}

/// Lists a name with its leftovers, and with the length up to their end if `LONGER`.
fn listed_with_leftovers<const LONGER: bool>(
    request: Request,
    arguments: &Arguments,
    lents: &mut Lents,
) -> Answer {
    let mut answer = reference(request, arguments, lents);
    if request == Request::TfsList && answer.value() == 1 {
        let field = &lents.image.bytes()[bytes(arguments.number as usize)][4..];
        answer.name.copy_from_slice(field);
        let end = field.iter().rposition(|byte| *byte != 0);
        if let (true, Some(end)) = (LONGER, end) {
            answer.words[5] = end as u64 + 1;
        }
    }
    answer
}

#[test]
fn names_listed_with_leftovers() {
    for side in [
        listed_with_leftovers::<false>,
        listed_with_leftovers::<true>,
    ] {
        let [ours, theirs] = found(side).difference.answers;
        let length = theirs.words[5] as usize;
        assert_eq!(ours.name[..length], theirs.name[..length]);
        assert!(theirs.name[length..].iter().all(|byte| *byte == 0));
        assert_ne!(ours.name, theirs.name);
    }
}

/// Puts bytes of the slot back that a granted create or remove has changed.
fn kept(
    request: Request,
    arguments: &Arguments,
    lents: &mut Lents,
    changing: Request,
    part: fn(&[u8], usize) -> Range<usize>,
) -> Answer {
    let before = lents.image.bytes().to_vec();
    let answer = reference(request, arguments, lents);
    if request == changing && answer.refusal() == 0 {
        let after = lents.image.bytes().to_vec();
        let named = [&before, &after][usize::from(request == Request::TfsCreate)];
        let slot = slot_of(named, &arguments.name).expect("the slot of the name");
        let part = part(named, slot);
        lents.image.bytes_mut()[part.clone()].copy_from_slice(&before[part]);
    }
    answer
}

/// All of a slot but its inode number and the first byte of its name.
fn behind_first(_: &[u8], slot: usize) -> Range<usize> {
    bytes(slot).start + 5..bytes(slot).end
}

#[test]
fn bytes_kept_in_the_slot_of_the_name() {
    let wrong: [(Request, Side); 3] = [
        (Request::TfsRemove, |r, a, l| {
            kept(r, a, l, Request::TfsRemove, behind_first)
        }),
        (Request::TfsRemove, |r, a, l| {
            kept(r, a, l, Request::TfsRemove, leftovers)
        }),
        (Request::TfsCreate, |r, a, l| {
            kept(r, a, l, Request::TfsCreate, leftovers)
        }),
    ];
    for (request, side) in wrong {
        let difference = found(side).difference;
        assert_eq!(difference.request, request);
        assert_eq!(difference.answers[0], difference.answers[1]);
        let at = difference.at[0].expect("another directory");
        assert!((1029..1524).contains(&at));
    }
}

/// Clears the leftovers of all slots where a request is granted.
fn cleared<const REQUEST: u32>(
    request: Request,
    arguments: &Arguments,
    lents: &mut Lents,
) -> Answer {
    let answer = reference(request, arguments, lents);
    if request as u32 == REQUEST && answer.refusal() == 0 {
        let image = lents.image.bytes_mut();
        for slot in 0..SLOTS {
            let behind = leftovers(image, slot);
            image[behind].fill(0);
        }
    }
    answer
}

#[test]
fn leftovers_of_other_slots_cleared() {
    let wrong: [Side; 3] = [
        cleared::<{ Request::TfsCreate as u32 }>,
        cleared::<{ Request::TfsRemove as u32 }>,
        cleared::<{ Request::TfsWrite as u32 }>,
    ];
    for side in wrong {
        let at = found(side).difference.at[0].expect("another directory");
        assert!((1029..1524).contains(&at));
    }
}
