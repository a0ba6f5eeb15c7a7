//! What is drawn for romfs: images, and the entries that arguments are drawn from.

use generate::romfs::{
    damage_rom, damage_rom_twice, flat_rom, forest_rom, grid_rom, rom, scramble_rom, seal_volume,
    tree_rom, Rom, RomPlan,
};
use generate::Random;

/// Leaves some entries to draw arguments from: each of their names is looked up for that.
pub(crate) fn thin(random: &mut Random, made: &mut Rom) {
    const ENOUGH: usize = 20;
    if made.entries.len() > ENOUGH {
        random.shuffle(&mut made.entries);
        made.entries.truncate(ENOUGH);
    }
}

/// A tree as it was made, and the image of it, sound or damaged.
pub(crate) fn any_image(random: &mut Random) -> (Rom, Vec<u8>) {
    let made = match random.below(1000) {
        0 => flat_rom(400, 100),
        1 => tree_rom(3, 5, 9),
        2..=99 => {
            let made = noise(random);
            let image = made.image.clone();
            return (made, image);
        }
        100..=299 => grid_rom(random),
        300..=329 => {
            let count = random.pick(&[100, 300, 300, 600, 600, 1200, 3000]);
            forest_rom(random, count)
        }
        _ => {
            let plan = plan(random);
            rom(random, plan)
        }
    };
    let image = damaged(random, &made).unwrap_or_else(|| made.image.clone());
    (made, image)
}

fn plan(random: &mut Random) -> RomPlan {
    let mut plan = RomPlan::small(random);
    if random.one_in(20) {
        plan.entries = random.pick(&[30, 120]);
        plan.content = random.pick(&[0, 100, 3000]);
    }
    if random.one_in(12) {
        plan.spine = 9;
    }
    plan
}

/// The image with one fault, with two, or with some bytes changed; nothing if it is to stay.
fn damaged(random: &mut Random, made: &Rom) -> Option<Vec<u8>> {
    let rules = [21, 22, 23, 24, 25, 26, 26, 26, 27, 27, 27, 28, 29, 29, 29];
    let rules = (random.pick(&rules), random.pick(&rules));
    match random.below(20) {
        0..=8 => None,
        9..=12 => damage_rom(random, made, rules.0).map(|(image, _)| image),
        13..=15 => damage_rom_twice(random, made, rules).map(|(image, _)| image),
        _ => Some(scramble_rom(random, made)),
    }
}

/// Bytes of no form, or with the first words of an image and the rest of no form.
fn noise(random: &mut Random) -> Rom {
    let any = random.below(3000);
    let length = random.pick(&[0, 1, 8, 31, 32, 33, 64, any, any, any]);
    let mut image = random.bytes(length);
    if length >= 32 && random.one_in(2) {
        let full_size = length & !15;
        image[..8].copy_from_slice(b"-rom1fs-");
        image[8..12].copy_from_slice(&(full_size as u32).to_be_bytes());
        seal_volume(&mut image);
    }
    Rom {
        image,
        full_size: length.max(32) as u32,
        entries: Vec::new(),
    }
}
