//! Leftovers stand in a good part of the volumes, and requests ignore and keep them.

mod placed;

use std::collections::HashMap;

use generate::cases::tfs_arguments;
use generate::tfs::{
    any_volume, damage_volume, has_leftovers, leftovers, put_leftovers, volume, File, Shape, Volume,
};
use generate::Random;
use placed::placed;
use reference::request::{run, Arguments, Request, CHECKING};
use reference::tfs::SLOTS;

/// Whether the leftovers of a slot are the name of another file.
fn left_name(made: &Volume, slot: usize) -> bool {
    let left = &made.image[leftovers(&made.image, slot)];
    let end = left.iter().position(|&byte| byte == 0);
    let left = &left[..end.unwrap_or(left.len())];
    let named = |file: &File| file.slot != slot && file.name == left;
    made.files.iter().any(named)
}

/// How many of 400 volumes have leftovers behind a name, in a free slot, anywhere the name of
/// another file, and none at all.
fn counted(shape: Shape) -> [usize; 4] {
    let mut random = Random::new(18);
    let mut counts = [0; 4];
    for _ in 0..400 {
        let made = volume(&mut random, shape, 40);
        let used = |slot: &usize| made.files.iter().any(|file| file.slot == *slot);
        let left = (0..SLOTS).filter(|slot| has_leftovers(&made.image, *slot));
        let (used, free): (Vec<usize>, Vec<usize>) = left.partition(used);
        let mut all = used.iter().chain(&free);
        let named = all.any(|slot| left_name(&made, *slot));
        let none = used.is_empty() && free.is_empty();
        let met = [!used.is_empty(), !free.is_empty(), named, none];
        for (count, met) in counts.iter_mut().zip(met) {
            *count += usize::from(met);
        }
    }
    counts
}

#[test]
fn volumes_have_leftovers_or_none() {
    for shape in [Shape::Scattered, Shape::Full, Shape::Lived] {
        let [used, free, named, none] = counted(shape);
        let enough = used > 100 && free > 160 && named > 30 && none > 80;
        assert!(enough, "{shape:?} {used} {free} {named} {none}");
    }
    let [used, free, named, none] = counted(Shape::Crowded);
    assert!(
        used > 200 && named > 30 && none > 80,
        "{used} {named} {none}"
    );
    assert_eq!(free, 0);
}

/// The image with zeros in place of all leftovers.
fn cleared(image: &[u8]) -> Vec<u8> {
    let mut cleared = image.to_vec();
    for slot in 0..SLOTS {
        cleared[leftovers(image, slot)].fill(0);
    }
    cleared
}

/// The slots whose 20 bytes differ.
fn changed(before: &[u8], after: &[u8]) -> Vec<usize> {
    let bytes = |slot: usize| 1024 + 20 * slot..1044 + 20 * slot;
    let differs = |slot: &usize| before[bytes(*slot)] != after[bytes(*slot)];
    (0..SLOTS).filter(differs).collect()
}

/// The name in a slot, up to its zero.
fn name(image: &[u8], slot: usize) -> &[u8] {
    let field = &image[1028 + 20 * slot..1044 + 20 * slot];
    field.split(|&byte| byte == 0).next().unwrap()
}

/// Two images of one volume that differ in leftovers only.
struct Twins([Vec<u8>; 2]);

impl Twins {
    /// A volume with its own leftovers, if it has any, and with others.
    fn new(random: &mut Random, made: &mut Volume) -> Self {
        let own = made.image.clone();
        put_leftovers(random, made);
        Self([own, made.image.clone()])
    }

    /// Makes a request on both, which must have the same answer and the same effect, and change
    /// no slot of another name; tells whether it is granted.
    fn ask(&mut self, request: Request, arguments: &Arguments) -> bool {
        let before = self.0.clone();
        let [one, other] = self.0.each_mut().map(|image| {
            let mut buffer = arguments.buffer.clone();
            let answer = run(request, arguments, image, &mut buffer);
            let (placed, buffer) = placed(request, &answer, image, &buffer);
            (answer, buffer, cleared(&placed))
        });
        assert!(one == other, "{request:?} {arguments:?}");
        for (before, after) in before.iter().zip(&self.0) {
            for slot in changed(before, after) {
                let names = [name(before, slot), name(after, slot)];
                assert!(names.contains(&&arguments.name[..]) && !arguments.name.is_empty());
            }
        }
        one.0.is_ok()
    }
}

/// A volume, once in four times a damaged one.
fn sound_or_damaged(random: &mut Random) -> Volume {
    let most = random.pick(&[8, 24, 40]);
    let mut made = any_volume(random, most);
    if random.one_in(4) {
        let rule = random.between(2, 7) as u32;
        let damaged = damage_volume(random, &made, rule);
        made.image = damaged.map_or(made.image, |(image, _)| image);
    }
    made
}

#[test]
fn leftovers_are_ignored_and_kept() {
    let mut random = Random::new(26);
    let mut granted: HashMap<Request, usize> = HashMap::new();
    let mut differing = 0;
    for _ in 0..400 {
        let mut made = sound_or_damaged(&mut random);
        let mut twins = Twins::new(&mut random, &mut made);
        for _ in 0..30 {
            let request = random.pick(&CHECKING);
            let arguments = tfs_arguments(&mut random, &made, request);
            if twins.ask(request, &arguments) {
                *granted.entry(request).or_default() += 1;
            }
        }
        differing += usize::from(twins.0[0] != twins.0[1]);
    }
    assert!(differing > 300, "{differing}");
    let enough = |request: &Request| granted[request] > 100;
    assert!(CHECKING.iter().all(enough), "{granted:?}");
}
