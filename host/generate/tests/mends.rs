//! Maps are damaged as they are said to be, and the quick mend agrees with a literal one.

mod naive;

use std::collections::HashMap;

use generate::cuts::{Change, Series};
use generate::tfs::{
    any_volume, damage_map, damage_volume, damage_volume_twice, put_padding, scramble_volume,
    stray_beside, MapFault,
};
use generate::Random;
use reference::tfs::{check, mend};
use reference::Refusal;

/// The image that a mend gives, or its refusal; both mends must agree, and a refused one changes
/// nothing.
fn mended(image: &[u8]) -> Result<Vec<u8>, Refusal> {
    let mut quick = image.to_vec();
    let answer = mend(&mut quick);
    let literal = naive::tfs_mend(image);
    match answer {
        Ok(()) => {
            assert!(literal.as_ref() == Ok(&quick));
            assert_eq!(check(&quick), Ok(()));
            Ok(quick)
        }
        Err(refusal) => {
            assert_eq!(literal, Err((refusal.number, refusal.place)));
            assert!(quick == image);
            Err(refusal)
        }
    }
}

#[test]
fn a_map_is_damaged_in_every_way() {
    let mut random = Random::new(61);
    let mut met: HashMap<MapFault, usize> = HashMap::new();
    let mut passed = 0;
    for _ in 0..600 {
        let mut made = any_volume(&mut random, 140);
        put_padding(&mut random, &mut made);
        for way in MapFault::ALL {
            let Some(damaged) = damage_map(&mut random, &made, way) else {
                continue;
            };
            assert_eq!(check(&damaged.image), Err(damaged.checked));
            match damaged.mended {
                None => assert!(mended(&damaged.image).as_ref() == Ok(&made.image)),
                Some(refusal) => assert_eq!(mended(&damaged.image), Err(refusal)),
            }
            let other = damaged.mended.is_some_and(|fault| fault != damaged.checked);
            passed += usize::from(other);
            *met.entry(way).or_default() += 1;
        }
    }
    assert!(
        met.len() == 7 && met.values().all(|count| *count > 100),
        "{met:?}"
    );
    assert!(passed > 50, "{passed}");
}

#[test]
fn stray_bits_stand_beside_every_other_fault() {
    let mut random = Random::new(62);
    let mut met = [0; 7];
    for _ in 0..600 {
        let made = any_volume(&mut random, 40);
        for rule in 1..=6 {
            if let Some((image, owed)) = stray_beside(&mut random, &made, rule) {
                assert_eq!(check(&image), Err(owed));
                assert_eq!(mended(&image), Err(owed));
                met[rule as usize] += 1;
            }
        }
    }
    assert!(met[1..].iter().all(|count| *count > 100), "{met:?}");
}

#[test]
fn both_mends_agree_on_damaged_volumes() {
    let mut random = Random::new(63);
    let mut granted = 0;
    for _ in 0..1_500 {
        let made = any_volume(&mut random, 60);
        let (one, other) = (random.between(1, 7) as u32, random.between(2, 7) as u32);
        let damaged = [
            damage_volume(&mut random, &made, one).map(|(image, _)| image),
            damage_volume_twice(&mut random, &made, (one, other)).map(|(image, _)| image),
            Some(scramble_volume(&mut random, &made)),
            Some(made.image.clone()),
        ];
        for image in damaged.iter().flatten() {
            granted += usize::from(mended(image).is_ok());
        }
    }
    assert!(granted > 1_500, "{granted}");
}

#[test]
fn both_mends_agree_on_cut_volumes() {
    let mut random = Random::new(64);
    for round in 0..600 {
        let made = any_volume(&mut random, 40);
        if let Some(change) = Change::draw(&mut random, &made, round % 3) {
            let series = Series::of_reference(&mut random, change, &made.image);
            for count in 0..=series.stores.len() {
                assert!(mended(&series.cut(count)).is_ok());
            }
        }
    }
}
