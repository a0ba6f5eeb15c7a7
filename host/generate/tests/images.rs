//! Generated images are what they are said to be, and the quick checks agree with literal ones.

mod naive;
mod ways;

use std::collections::{HashMap, HashSet};
use std::ops::RangeInclusive;

use generate::romfs::{
    damage_rom, damage_rom_twice, flat_rom, rom, scramble_rom, tree_rom, Placed, Rom, RomPlan,
};
use generate::tfs::{
    any_volume, damage_slot, damage_volume, damage_volume_twice, scramble_volume, volume,
    volume_with_files, Shape, SlotFault, Volume,
};
use generate::Random;
use reference::romfs::{self, Entry};
use reference::tfs::{self, Listing, SLOTS};
use reference::Refusal;

/// A damaged image and the fault owed to it, if there is a part to damage.
type Damaged = Option<(Vec<u8>, Refusal)>;

/// The checks of a filesystem, and how its images are damaged.
struct Filesystem<T> {
    rules: RangeInclusive<u32>,
    check: fn(&[u8]) -> Result<(), Refusal>,
    literal: fn(&[u8]) -> naive::Fault,
    damage: fn(&mut Random, &T, u32) -> Damaged,
    damage_twice: fn(&mut Random, &T, (u32, u32)) -> Damaged,
}

const TFS: Filesystem<Volume> = Filesystem {
    rules: 1..=7,
    check: tfs::check,
    literal: naive::tfs_fault,
    damage: damage_volume,
    damage_twice: damage_volume_twice,
};

const ROMFS: Filesystem<Rom> = Filesystem {
    rules: 21..=29,
    check: romfs::check,
    literal: naive::romfs_fault,
    damage: damage_rom,
    damage_twice: damage_rom_twice,
};

/// The rules broken alone, each with the number owed to it, and the rules broken in pairs.
#[derive(Default)]
struct Broken {
    alone: HashSet<(u32, u32)>,
    pairs: HashSet<(u32, u32)>,
}

impl<T> Filesystem<T> {
    /// The fault of an image, which both checks must give.
    fn fault(&self, image: &[u8]) -> Option<Refusal> {
        let fault = (self.check)(image).err();
        let told = fault.map(|refusal| (refusal.number, refusal.place));
        assert_eq!(told, (self.literal)(image));
        fault
    }

    /// Breaks every rule of an image alone and with every other; each time the fault owed is found.
    fn break_all(&self, random: &mut Random, made: &T, broken: &mut Broken) {
        for first in self.rules.clone() {
            if let Some((image, owed)) = (self.damage)(random, made, first) {
                assert_eq!(self.fault(&image), Some(owed), "{first}");
                broken.alone.insert((first, owed.number));
            }
            for second in first..=*self.rules.end() {
                let rules = (first, second);
                if let Some((image, owed)) = (self.damage_twice)(random, made, rules) {
                    assert_eq!(self.fault(&image), Some(owed), "{rules:?}");
                    broken.pairs.insert(rules);
                }
            }
        }
    }
}

#[test]
fn made_volumes_are_consistent() {
    let mut random = Random::new(11);
    for round in 0..600 {
        let most = if round % 100 == 0 { 4096 } else { 200 };
        let made = any_volume(&mut random, most);
        assert_eq!(TFS.fault(&made.image), None);
        for slot in 0..SLOTS {
            let file = made.files.iter().find(|file| file.slot == slot);
            let listed = file.map_or(Listing::Free, |file| Listing::Used {
                name: &file.name,
                inode: file.inode,
                size: file.size,
            });
            assert_eq!(tfs::list(&made.image, slot as u32), Ok(listed));
        }
    }
}

#[test]
fn volumes_with_given_files_are_consistent() {
    let mut random = Random::new(20);
    let sizes = [0, 1, 512, 513, 65_024, 30_000];
    let made = volume_with_files(&mut random, 200, &sizes);
    assert_eq!(TFS.fault(&made.image), None);
    for (slot, size) in sizes.into_iter().enumerate() {
        let name = format!("F{slot}");
        let inode = made.files[slot].inode;
        let name = name.as_bytes();
        let listed = Listing::Used { name, inode, size };
        assert_eq!(tfs::list(&made.image, slot as u32), Ok(listed));
    }
    let blocks = &made.files[4].blocks;
    let neighbours = blocks.windows(2).filter(|two| two[0] + 1 == two[1]);
    assert!(neighbours.count() < 10, "{blocks:?}");
}

#[test]
fn names_of_gone_files_stand_again_or_not() {
    let mut random = Random::new(16);
    let (mut standing, mut absent) = (0, 0);
    for _ in 0..200 {
        let made = volume(&mut random, Shape::Lived, 24);
        for file in &made.gone {
            match tfs::read(&made.image, &file.name, 0, &mut []) {
                Ok(_) => standing += 1,
                Err(refusal) => {
                    assert_eq!(refusal, Refusal::plain(13));
                    absent += 1;
                }
            }
        }
    }
    assert!(standing > 100 && absent > 100, "{standing} {absent}");
}

#[test]
fn files_of_similar_names_stand_side_by_side() {
    let mut random = Random::new(17);
    let (mut begun, mut lettered) = (0, 0);
    for _ in 0..400 {
        let made = volume(&mut random, Shape::Crowded, 40);
        for (index, file) in made.files.iter().enumerate() {
            let others = made.files[..index].iter().map(|other| &other.name);
            for other in others {
                begun += usize::from(file.name.starts_with(other));
                lettered += usize::from(file.name.eq_ignore_ascii_case(other));
            }
        }
    }
    assert!(begun > 100 && lettered > 100, "{begun} {lettered}");
}

#[test]
fn shapes_are_what_they_say() {
    let mut random = Random::new(12);
    for blocks in [3, 4, 5, 28, 29, 60, 131, 140, 4096] {
        let empty = volume(&mut random, Shape::Empty, blocks);
        assert_eq!(tfs::free_bytes(&empty.image), Ok(512 * (blocks as u32 - 3)));
        if (4..=131).contains(&blocks) {
            let full = volume(&mut random, Shape::Full, blocks);
            assert_eq!(tfs::check(&full.image), Ok(()));
            assert!(tfs::free_bytes(&full.image).unwrap() <= 512 * 2, "{blocks}");
        }
        if blocks >= 28 {
            let crowded = volume(&mut random, Shape::Crowded, blocks);
            assert_eq!(tfs::check(&crowded.image), Ok(()));
            assert_eq!(crowded.files.len(), 25);
        }
        if blocks >= 131 {
            let largest = volume(&mut random, Shape::Largest, blocks);
            assert_eq!(tfs::check(&largest.image), Ok(()));
            assert!(largest.files.iter().any(|file| file.size == 65_024));
        }
    }
}

#[test]
fn each_rule_of_tfs_is_broken_alone_and_in_pairs() {
    let mut random = Random::new(13);
    let mut broken = Broken::default();
    for _ in 0..800 {
        let made = any_volume(&mut random, 40);
        TFS.break_all(&mut random, &made, &mut broken);
        TFS.fault(&scramble_volume(&mut random, &made));
    }
    assert!(broken.alone.iter().all(|(rule, number)| rule == number));
    assert_eq!((broken.alone.len(), broken.pairs.len()), (7, 28));
}

#[test]
fn a_slot_is_broken_in_every_way() {
    let mut random = Random::new(19);
    let mut broken: HashMap<(SlotFault, bool), usize> = HashMap::new();
    for _ in 0..400 {
        let made = any_volume(&mut random, 40);
        for way in SlotFault::ALL {
            let Some((image, owed)) = damage_slot(&mut random, &made, way) else {
                assert!(way == SlotFault::Repeated && made.files.len() < 2);
                continue;
            };
            assert_eq!(TFS.fault(&image), Some(owed), "{way:?}");
            let met = ways::way(&image, owed.place);
            assert_eq!(met.0, way);
            *broken.entry(met).or_default() += 1;
        }
    }
    // A name without an end has no leftovers; the other ways come with and without.
    assert_eq!(broken.len(), 9);
    assert!(broken.values().all(|count| *count > 20), "{broken:?}");
}

/// What the header of a placed entry says, which is as it was placed.
fn entry_of(made: &Rom, placed: &Placed) -> Entry {
    let entry = romfs::entry(&made.image, placed.at).unwrap();
    assert_eq!(entry.file_type, placed.file_type);
    assert_eq!(entry.next, placed.next);
    assert_eq!(entry.name_length as usize, placed.name.len());
    entry
}

#[test]
fn made_roms_are_allowed() {
    let mut random = Random::new(14);
    let mut deepest = 0;
    let mut types = HashSet::new();
    for _ in 0..3000 {
        let plan = RomPlan::small(&mut random);
        let made = rom(&mut random, plan);
        assert_eq!(ROMFS.fault(&made.image), None);
        for placed in &made.entries {
            let entry = entry_of(&made, placed);
            deepest = deepest.max(placed.depth);
            types.insert((entry.file_type as u32, placed.is_dot(), entry.name_length));
        }
    }
    assert_eq!(deepest, 8);
    for length in [1, 15, 16, 31, 32] {
        (0..8).for_each(|file_type| assert!(types.contains(&(file_type, false, length))));
    }
    assert!(types.contains(&(1, true, 1)) && types.contains(&(1, true, 2)));
}

#[test]
fn large_roms_are_allowed() {
    let flat = flat_rom(300, 70);
    let tree = tree_rom(5, 3, 20);
    for (made, count) in [(&flat, 370), (&tree, 155)] {
        assert_eq!(made.entries.len(), count);
        assert_eq!(ROMFS.fault(&made.image), None);
        for placed in &made.entries {
            entry_of(made, placed);
        }
    }
    let link = romfs::find(&flat.image, 0, b"l00000069").unwrap();
    let file = romfs::find(&flat.image, 0, b"f00000069").unwrap();
    assert_eq!(romfs::entry(&flat.image, link).unwrap().info, file);
    let lower = |dir: u32, name: &[u8]| romfs::find(&tree.image, dir, name).unwrap();
    let file = lower(lower(lower(0, b"d04"), b"d03"), b"f02");
    assert_eq!(romfs::content(&tree.image, file), &[2; 20]);
}

#[test]
fn each_rule_of_romfs_is_broken_alone_and_in_pairs() {
    let mut random = Random::new(15);
    let mut broken = Broken::default();
    for round in 0..1500 {
        let mut plan = RomPlan::small(&mut random);
        if round % 3 == 0 {
            plan.spine = 9;
        }
        let made = rom(&mut random, plan);
        ROMFS.break_all(&mut random, &made, &mut broken);
        for _ in 0..4 {
            ROMFS.fault(&scramble_rom(&mut random, &made));
        }
    }
    let numbers: HashSet<u32> = broken.alone.iter().map(|(_, number)| *number).collect();
    assert_eq!((numbers.len(), broken.pairs.len()), (9, 45));
}
