//! Cases on romfs images.

use reference::request::Request;

use super::case::Case;
use super::drawn::Drawn;
use super::romfs_arguments::romfs_arguments;
use crate::romfs::{damage_rom, damage_rom_twice, rom, scramble_rom, Rom, RomPlan};
use crate::Random;

const OTHERS: [Request; 5] = [
    Request::RomFind,
    Request::RomEntry,
    Request::RomFind,
    Request::RomLength,
    Request::RomContent,
];

/// Draws cases on romfs images: a check of every image, other requests on some of them.
///
/// Every answer of the check comes up once before the rest is left to chance.
pub fn romfs_cases(seed: u64, count: usize) -> Vec<Case> {
    let mut drawn = Drawn::new(seed);
    one_of_each(&mut drawn);
    while drawn.cases.len() < count {
        on_next_rom(&mut drawn);
    }
    drawn.cases.truncate(count);
    drawn.cases
}

/// Adds a check for each of its refusals.
fn one_of_each(drawn: &mut Drawn) {
    for rule in 21..=29 {
        let plan = RomPlan {
            entries: 8,
            content: 40,
            spine: if rule == 28 { 9 } else { 3 },
        };
        let damaged = loop {
            let made = rom(&mut drawn.random, plan);
            if let Some((damaged, _)) = damage_rom(&mut drawn.random, &made, rule) {
                break damaged;
            }
        };
        drawn.add_plain(Request::RomCheck, &damaged);
    }
}

/// Adds cases on a new image, sound or damaged.
fn on_next_rom(drawn: &mut Drawn) {
    let random = &mut drawn.random;
    let mut plan = RomPlan::small(random);
    if random.one_in(12) {
        plan.spine = 9;
    }
    let made = rom(random, plan);
    let damaged = damaged(random, &made);
    let sound = damaged.is_none() && plan.spine < 9;
    let image = damaged.unwrap_or_else(|| made.image.clone());
    drawn.add_plain(Request::RomCheck, &image);
    let others = match sound {
        true => 3,
        false => usize::from(drawn.random.one_in(4)),
    };
    (0..others).for_each(|_| other(drawn, &made, &image));
}

/// The image with one fault, with two, or with some bytes changed; nothing if it is to stay.
fn damaged(random: &mut Random, made: &Rom) -> Option<Vec<u8>> {
    match random.below(20) {
        0..=8 => None,
        9..=13 => {
            let rule = random.pick(&[21, 22, 23, 24, 25, 26, 26, 27, 27, 28, 29, 29, 29]);
            damage_rom(random, made, rule).map(|(image, _)| image)
        }
        14..=16 => {
            let rules = (random.between(24, 29) as u32, random.between(24, 29) as u32);
            damage_rom_twice(random, made, rules).map(|(image, _)| image)
        }
        _ => Some(scramble_rom(random, made)),
    }
}

/// Adds the request whose turn it is.
fn other(drawn: &mut Drawn, made: &Rom, image: &[u8]) {
    let request = drawn.turn(&OTHERS);
    let arguments = romfs_arguments(&mut drawn.random, made, image, request);
    drawn.add(request, arguments, image);
}
