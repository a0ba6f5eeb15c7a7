//! Mends, and the hint that one would help.

mod bench;

use bench::{some, Folder};
use generate::cuts::{Change, Series};
use generate::tfs::{any_volume, damage_map, damage_volume, stray_beside, MapFault};
use generate::Random;
use reference::tfs;

const HINT: &str = " (tfs mend helps)\n";

/// A volume with two files: "a" has blocks 3 to 5, "b" has 6 and 7.
fn with_files(name: &str) -> Folder {
    let folder = Folder::new(name);
    folder.tfs("make v --size 64K").granted();
    for (file, size) in [("a", 1_000), ("b", 300)] {
        folder.write(file, &some(size));
        folder.tfs(&format!("put v {file}")).granted();
    }
    folder
}

/// Turns the bits of blocks below 32 in the map of an image.
fn flip(folder: &Folder, image: &str, blocks: &[usize]) {
    let mut bytes = folder.read(image);
    for block in blocks {
        bytes[512 + 3 - block / 8] ^= 1 << (block % 8);
    }
    folder.write(image, &bytes);
}

#[test]
fn stray_bits_are_cleared_and_counted() {
    let folder = with_files("mend_stray");
    let sound = folder.read("v");
    for blocks in [&[8][..], &[9, 31], &[8, 9, 10, 11, 12]] {
        for option in ["", " --in-place"] {
            flip(&folder, "v", blocks);
            let told = format!("map bits cleared: {}\n", blocks.len());
            assert_eq!(folder.tfs(&format!("mend v{option}")).text(), told);
            assert!(folder.read("v") == sound);
        }
    }
    assert_eq!(folder.tfs("check v").text(), "consistent\n");
}

#[test]
fn a_consistent_volume_is_not_written() {
    let folder = with_files("mend_consistent");
    let written = || std::fs::metadata(folder.path("v")).unwrap().modified();
    let before = (folder.read("v"), written().unwrap());
    for option in ["", " --in-place"] {
        let told = folder.tfs(&format!("mend v{option}")).text();
        assert_eq!(told, "map bits cleared: 0\n");
    }
    assert!((folder.read("v"), written().unwrap()) == before);
}

#[test]
fn a_missing_bit_is_refused_at_its_place() {
    let folder = with_files("mend_missing");
    flip(&folder, "v", &[5, 20]);
    let message = "v: refused 7: block 5 belongs to a and is marked free";
    for line in ["check v", "mend v", "mend v --in-place", "remove v a"] {
        folder.refused(line, 1, message);
    }
    flip(&folder, "v", &[5]);
    flip(&folder, "v", &[7]);
    let message = "v: refused 7: block 7 belongs to b and is marked free";
    folder.refused("mend v", 1, message);
}

#[test]
fn a_stray_bit_before_a_missing_one_has_no_hint() {
    let folder = with_files("mend_before");
    folder.tfs("remove v a").granted();
    flip(&folder, "v", &[4, 7]);
    let stray = "v: refused 7: block 4 is marked used and no file has it";
    folder.refused("check v", 1, stray);
    let missing = "v: refused 7: block 7 belongs to b and is marked free";
    folder.refused("mend v", 1, missing);
}

/// Checks a damaged image: the message has the hint exactly if a mend is granted.
fn hinted(folder: &Folder, image: &[u8]) -> bool {
    folder.write("w", image);
    let checked = folder.tfs("check w");
    let helps = tfs::check(image).is_err() && tfs::mend(&mut image.to_vec()).is_ok();
    assert_eq!(checked.err.ends_with(HINT), helps, "{}", checked.err);
    assert_eq!(
        folder.tfs("mend w").status == 0,
        helps || checked.status == 0
    );
    helps
}

#[test]
fn the_hint_comes_exactly_where_a_mend_is_granted() {
    let folder = Folder::new("mend_hint");
    let mut random = Random::new(7);
    let mut met = [0; 2];
    for round in 0..120 {
        let made = any_volume(&mut random, 40);
        let way = MapFault::ALL[round % 7];
        let rule = round as u32 % 7 + 1;
        let images = [
            damage_map(&mut random, &made, way).map(|damaged| damaged.image),
            damage_volume(&mut random, &made, rule).map(|(image, _)| image),
            stray_beside(&mut random, &made, rule.min(6)).map(|(image, _)| image),
        ];
        for image in images.iter().flatten() {
            met[usize::from(hinted(&folder, image))] += 1;
        }
    }
    assert!(met.iter().all(|count| *count > 20), "{met:?}");
}

#[test]
fn every_command_has_the_hint() {
    let folder = with_files("mend_commands");
    folder.write("t", b"");
    folder.write("values", &[b'7', b' '].repeat(28));
    flip(&folder, "v", &[20]);
    let message = "v: refused 7: block 20 is marked used and no file has it (tfs mend helps)";
    for line in [
        "check v",
        "list v",
        "free v",
        "put v a",
        "put v a --in-place",
        "get v a",
        "remove v a",
        "remove v a --in-place",
        "replay v t",
        "timing show v",
        "timing store v --board 1 --maker 1 values",
        "timing open-lid v --in-place",
        "timing boot v --board 1 --maker 1",
    ] {
        folder.refused(line, 1, message);
    }
}

#[test]
fn cut_volumes_are_mended() {
    let folder = Folder::new("mend_cuts");
    let mut random = Random::new(8);
    let mut cuts = 0;
    for round in 0..12 {
        let made = any_volume(&mut random, 24);
        let Some(change) = Change::draw(&mut random, &made, round % 2) else {
            continue;
        };
        let series = Series::of_reference(&mut random, change, &made.image);
        for count in 0..=series.stores.len() {
            let cut = series.cut(count);
            folder.write("v", &cut);
            folder.tfs("mend v --in-place").granted();
            let checked = tfs::check(&folder.read("v")).err();
            assert_eq!(series.mends(&cut, &folder.read("v"), checked), Ok(()));
            cuts += 1;
        }
    }
    assert!(cuts > 30, "{cuts}");
}
