//! Cases of mends.

use reference::request::Request;

use super::drawn::Drawn;
use crate::cuts::{Change, Series};
use crate::tfs::{damage_map, stray_beside, volume, DamagedMap, MapFault, Shape, Volume};
use crate::Random;

/// Adds mends of sound volumes, of each way in which a map is wrong, of stray bits beside every
/// other fault, and of volumes that are cut.
pub(super) fn one_of_each(drawn: &mut Drawn, made: &Volume, damaged: &[Vec<u8>]) {
    let mut images = vec![made.image.clone()];
    images.extend_from_slice(damaged);
    let random = &mut drawn.random;
    let ways = MapFault::ALL.repeat(2).into_iter();
    images.extend(ways.map(|way| strayed(random, 12, way)));
    images.extend([(); 2].map(|()| strayed_before(random)));
    // The end of the volume cuts a word of the map, or does not.
    images.extend([31, 32, 33].map(|blocks| strayed(random, blocks, MapFault::AllStray)));
    images.extend([2, 3, 4, 5, 6].map(|rule| struck(random, rule)));
    images.extend([0, 0, 1, 1].map(|kind| cut(random, kind)));
    for image in &images {
        drawn.add_plain(Request::TfsMend, image);
    }
}

fn some_volume(random: &mut Random, blocks: usize) -> Volume {
    let shape = random.pick(&[Shape::Scattered, Shape::Lived]);
    volume(random, shape, blocks)
}

/// A volume of so many blocks whose map is wrong in a way.
fn strayed(random: &mut Random, blocks: usize, way: MapFault) -> Vec<u8> {
    loop {
        let made = some_volume(random, blocks);
        if let Some(damaged) = damage_map(random, &made, way) {
            return damaged.image;
        }
    }
}

/// A volume with a stray bit before a claimed block whose bit is not set.
fn strayed_before(random: &mut Random) -> Vec<u8> {
    loop {
        let made = some_volume(random, 12);
        let damaged = damage_map(random, &made, MapFault::StrayAndMissing);
        let before = |damaged: &DamagedMap| damaged.mended != Some(damaged.checked);
        if let Some(damaged) = damaged.filter(before) {
            return damaged.image;
        }
    }
}

/// A volume with stray bits and another fault.
fn struck(random: &mut Random, rule: u32) -> Vec<u8> {
    loop {
        let made = some_volume(random, 12);
        if let Some((image, _)) = stray_beside(random, &made, rule) {
            return image;
        }
    }
}

/// A volume on which a create (0) or a remove (1) was cut where its blocks are reserved and no file
/// has them.
fn cut(random: &mut Random, kind: usize) -> Vec<u8> {
    loop {
        let made = some_volume(random, 12);
        if let Some(change) = Change::draw(random, &made, kind) {
            let series = Series::of_reference(random, change, &made.image);
            return series.cut(series.stores.len() - 1);
        }
    }
}
