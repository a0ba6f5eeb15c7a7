//! A program sought out as a wrong one by the comparison with the reference.

#![allow(dead_code)]

use compare::sides::reference;
use compare::{options, run, Found, Limits, Side, Tally};

/// Compares a program with the reference.
pub fn compared(words: &str, side: Side) -> (Tally, Option<Found>) {
    let words = words.split(' ').map(str::to_owned);
    let limits: Limits = options::parse(words).expect("options");
    run(limits, [side, reference])
}

/// Finds a wrong program, and finds it again by the number of the image alone.
pub fn found(side: Side) -> Found {
    found_in("", side)
}

/// The same, with these words more for the comparison.
pub fn found_in(words: &str, side: Side) -> Found {
    let (_, found) = compared(&format!("--seed 1 --cases 40000{words}"), side);
    let found = found.expect("the wrong program is found");
    let again = format!("--seed 1 --image {}{words}", found.image);
    let (_, again) = compared(&again, side);
    assert_eq!(again.expect("found again").request, found.request);
    found
}
