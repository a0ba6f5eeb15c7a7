//! The reading finds the library's fault first, and every other.

use super::{volume, Claim, Part, State};
use generate::tfs::{
    any_volume, damage_map, damage_slot, damage_volume, damage_volume_twice, scramble_volume,
    stray_beside, volume_with_files, MapFault, SlotFault, Volume,
};
use generate::Random;
use proved::tfs;
use std::collections::HashSet;

/// The numbers and places of all faults of an image, of which the library must give the first.
fn faults(image: &[u8]) -> Vec<(u32, u32)> {
    let faults = volume(image).faults();
    let listed: Vec<(u32, u32)> = faults.iter().map(|f| (f.number, f.place)).collect();
    let first = tfs::check(image).err();
    let first = first.map(|refusal| (refusal.number, refusal.place));
    assert_eq!(listed.first().copied(), first, "{faults:?}");
    assert!(listed.is_sorted_by(|one, other| one < other), "{faults:?}");
    listed
}

/// Damaged images made of a volume.
fn damaged(random: &mut Random, made: &Volume) -> Vec<Vec<u8>> {
    let mut images = Vec::new();
    for rule in 1..=7 {
        let other = random.between(1, 7) as u32;
        images.extend(damage_volume(random, made, rule));
        images.extend(damage_volume_twice(random, made, (rule, other)));
        images.extend(stray_beside(random, made, rule.min(6)));
    }
    images.into_iter().map(|(image, _)| image).collect()
}

/// Noise over some bytes of an image, mostly of its first blocks.
fn noisy(random: &mut Random, image: &[u8]) -> Vec<u8> {
    let mut image = image.to_vec();
    let most = random.pick(&[1536, image.len(), image.len()]);
    let start = random.below(most);
    let end = (start + random.between(1, 600)).min(image.len());
    random.fill(&mut image[start..end]);
    image
}

#[test]
fn a_consistent_volume_has_no_fault() {
    let mut random = Random::new(51);
    for round in 0..3000 {
        let most = if round % 300 == 0 { 4096 } else { 200 };
        let made = any_volume(&mut random, most);
        assert_eq!(faults(&made.image), [], "{round}");
    }
}

#[test]
fn the_first_fault_is_the_library_s() {
    let mut random = Random::new(52);
    let mut numbers = HashSet::new();
    for _ in 0..3000 {
        let made = any_volume(&mut random, 60);
        for image in damaged(&mut random, &made) {
            let found = faults(&image);
            numbers.extend(found.first().map(|(number, _)| *number));
        }
    }
    assert_eq!(numbers.len(), 7);
}

#[test]
fn noise_over_a_volume_has_the_library_s_first_fault() {
    let mut random = Random::new(53);
    let (mut several, mut none) = (0, 0);
    for _ in 0..8000 {
        let made = any_volume(&mut random, 60);
        let scrambled = faults(&scramble_volume(&mut random, &made));
        let noisy = faults(&noisy(&mut random, &made.image));
        several += usize::from(scrambled.len() > 1) + usize::from(noisy.len() > 1);
        none += usize::from(scrambled.is_empty()) + usize::from(noisy.is_empty());
    }
    assert!(several > 2000 && none > 1000, "{several} {none}");
}

#[test]
fn bytes_of_any_length_can_be_read() {
    let mut random = Random::new(54);
    for length in (0..1600).chain([2048, 4096 * 512, 4096 * 512 + 700]) {
        for bytes in [vec![0; length], vec![0xff; length], random.bytes(length)] {
            let found = faults(&bytes);
            assert_eq!(found == [(1, 0)], length < 1536, "{length}");
        }
    }
}

/// Puts a word into an image.
fn set(image: &mut [u8], at: usize, word: u32) {
    image[at..at + 4].copy_from_slice(&word.to_be_bytes());
}

#[test]
fn a_fault_of_every_rule_is_listed() {
    let mut random = Random::new(60);
    let made = volume_with_files(&mut random, 60, &[1000, 2000, 3000]);
    let [one, two, three] = [0, 1, 2].map(|slot| &made.files[slot]);
    let mut image = made.image.clone();
    image[..20].fill(7);
    set(&mut image, 1024 + 20 * 9, 60);
    set(&mut image, 512 * one.inode as usize, 65_025);
    let twice = three.blocks[0];
    set(&mut image, 512 * two.inode as usize + 4, twice);
    let mut lost = [&one.blocks[..], &two.blocks[..1]].concat();
    lost.sort_unstable();
    let lost = lost.iter().map(|block| (7, *block));
    let sooner = [(2, 0), (3, 0), (4, 9), (5, 0), (6, twice)];
    let expected: Vec<_> = sooner.into_iter().chain(lost).collect();
    assert_eq!(faults(&image), expected);
}

#[test]
fn a_wrong_magic_number_hides_no_other_fault() {
    let mut random = Random::new(55);
    let mut ways = HashSet::new();
    for _ in 0..600 {
        let made = any_volume(&mut random, 40);
        for way in SlotFault::ALL {
            let Some((image, fault)) = damage_slot(&mut random, &made, way) else {
                continue;
            };
            let mut both = image.clone();
            both[..4].fill(0);
            let mut expected = vec![(2, 0)];
            expected.extend(faults(&image));
            assert!(expected.contains(&(4, fault.place)));
            assert_eq!(faults(&both), expected);
            ways.insert(way);
        }
    }
    assert_eq!(ways.len(), SlotFault::ALL.len());
}

#[test]
fn every_wrong_bit_of_a_map_is_listed() {
    let mut random = Random::new(56);
    let mut most = 0;
    for _ in 0..400 {
        let made = any_volume(&mut random, 100);
        for way in MapFault::ALL {
            let Some(damaged) = damage_map(&mut random, &made, way) else {
                continue;
            };
            let (before, after) = (volume(&made.image), volume(&damaged.image));
            let turned = |block: &u32| {
                before.blocks[*block as usize].marked != after.blocks[*block as usize].marked
            };
            let turned: Vec<_> = (0..made.blocks as u32).filter(turned).collect();
            let expected: Vec<_> = turned.iter().map(|block| (7, *block)).collect();
            assert_eq!(faults(&damaged.image), expected, "{way:?}");
            most = most.max(expected.len());
        }
    }
    assert!(most > 50);
}

#[test]
fn slots_inodes_and_claims_are_those_of_the_files() {
    let mut random = Random::new(57);
    for _ in 0..1000 {
        let made = any_volume(&mut random, 200);
        let survey = volume(&made.image);
        assert_eq!(survey.blocks.len(), made.blocks);
        let used = |slot: &usize| survey.slots[*slot].state() == State::Used;
        let used: Vec<usize> = (0..25).filter(used).collect();
        let slots: Vec<usize> = made.files.iter().map(|file| file.slot).collect();
        assert_eq!(used, slots);
        assert!(survey.slots.iter().all(|slot| slot.repeats.is_none()));
        for file in &made.files {
            let slot = &survey.slots[file.slot];
            let inode = slot.inode.as_ref().unwrap();
            assert_eq!(slot.name.as_ref(), Some(&file.name));
            assert_eq!((slot.number, inode.size), (file.inode, file.size));
            assert_eq!(inode.content(), file.blocks);
            let content = file.blocks.iter().enumerate();
            let content = content.map(|(index, block)| (*block, Part::Content(index)));
            for (block, part) in content.chain([(file.inode, Part::Inode)]) {
                let slot = file.slot;
                assert_eq!(survey.blocks[block as usize].claims, [Claim { slot, part }]);
            }
        }
    }
}

#[test]
fn a_bad_name_takes_no_block_from_its_file() {
    let mut random = Random::new(58);
    let made = volume_with_files(&mut random, 60, &[1000, 2000]);
    for field in [[0; 16], [b'x'; 16]] {
        let mut image = made.image.clone();
        image[1028..1044].copy_from_slice(&field);
        assert_eq!(faults(&image), [(4, 0)]);
    }
}

#[test]
fn blocks_of_an_inode_number_out_of_range_are_marked_and_of_no_file() {
    let mut random = Random::new(59);
    let made = volume_with_files(&mut random, 60, &[1000, 2000]);
    let mut image = made.image.clone();
    image[1024..1028].fill(0xff);
    let file = &made.files[0];
    let mut lost: Vec<u32> = file.blocks.iter().copied().chain([file.inode]).collect();
    lost.sort_unstable();
    let lost = lost.iter().map(|block| (7, *block));
    let expected: Vec<_> = [(4, 0)].into_iter().chain(lost).collect();
    assert_eq!(faults(&image), expected);
}
