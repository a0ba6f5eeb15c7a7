//! Names near a given one.

use crate::Random;

/// Another name that differs little: a byte less, more or changed, or letters in the other case.
pub(crate) fn similar(random: &mut Random, name: &[u8]) -> Vec<u8> {
    let mut other = name.to_vec();
    let at = random.below(name.len());
    match random.below(5) {
        0 if name.len() > 1 => other.truncate(name.len() - 1),
        1 if name.len() < 15 => other.push(random.nonzero()),
        2 => change_case(&mut other[at..=at]),
        3 => change_case(&mut other),
        _ => other[at] = random.nonzero(),
    }
    if other == name {
        other[at] = name[at].wrapping_add(1).max(1);
    }
    other
}

/// A name that no file may have: empty, too long, or with a zero byte.
pub(crate) fn not_allowed(random: &mut Random, name: &[u8]) -> Vec<u8> {
    let mut wrong = name.to_vec();
    match random.below(7) {
        0 => wrong.clear(),
        1 => wrong.push(0),
        2 => wrong.insert(0, 0),
        3 => wrong[random.below(name.len())] = 0,
        4 => wrong.resize(16, 0),
        5 => wrong.resize(16, b'A'),
        _ => {
            let length = random.pick(&[16, 17, 32, 300]);
            wrong = random.name(length);
        }
    }
    wrong
}

/// Turns A to Z into a to z and back.
pub(crate) fn change_case(name: &mut [u8]) {
    let letters = name.iter_mut().filter(|byte| byte.is_ascii_alphabetic());
    letters.for_each(|letter| *letter ^= 0x20);
}
