//! Stores are asked for by every kind of number and with every kind of buffer.

use std::collections::HashMap;

use generate::cases::{stored, tfs_arguments};
use generate::tfs::any_volume;
use generate::Random;
use reference::request::{run, Arguments, Request};

const STORES: [Request; 3] = [
    Request::TfsCreateStore,
    Request::TfsRemoveStore,
    Request::TfsWriteStore,
];

/// The number of stores of a request, if it is granted.
fn count(request: Request, arguments: &Arguments, image: &[u8]) -> Option<usize> {
    let whole = stored(request)?;
    let bytes = arguments.bytes.clone();
    let (values, _) = run(whole, arguments, &mut image.to_vec(), &mut bytes.clone()).ok()?;
    Some(match whole {
        Request::TfsCreate => (arguments.number as usize).div_ceil(512) + 3,
        Request::TfsRemove => 2,
        _ => values[1] as usize,
    })
}

/// What kind of number k is among so many stores.
fn kind(k: usize, last: usize) -> &'static str {
    match k {
        0 => "0",
        usize::MAX => "the largest",
        1 if last > 0 => "1",
        _ if k == last => "the last",
        _ if k < last => "inside",
        _ if k == last + 1 => "one past the last",
        _ if (1..=last).contains(&(k & 0xFFFF_FFFF)) => "inside in its lower half",
        _ => "past the last",
    }
}

#[test]
fn numbers_and_buffers_of_every_kind_are_drawn() {
    let mut random = Random::new(68);
    let mut numbers: HashMap<(Request, &str), usize> = HashMap::new();
    let mut lengths: HashMap<(Request, usize), usize> = HashMap::new();
    for _ in 0..3_000 {
        let made = any_volume(&mut random, 40);
        for request in STORES {
            let arguments = tfs_arguments(&mut random, &made, request);
            let length = arguments.buffer.len().min(514);
            *lengths.entry((request, length)).or_default() += 1;
            if let Some(last) = count(request, &arguments, &made.image) {
                let kind = kind(arguments.k, last);
                *numbers.entry((request, kind)).or_default() += 1;
            }
        }
    }
    // A remove has no store between its first and its last.
    assert_eq!(numbers.len(), 8 + 7 + 8, "{numbers:?}");
    assert!(numbers.values().all(|count| *count > 5), "{numbers:?}");
    for request in STORES {
        for length in [0, 1, 511, 512, 513, 514] {
            assert!(lengths[&(request, length)] > 10, "{request:?} {length}");
        }
    }
}
