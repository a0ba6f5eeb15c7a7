//! The check of several volumes, and all faults of one.

mod bench;

use bench::json::{accepted, prints, with_volume};
use bench::Folder;
use generate::tfs::{any_volume, damage_volume, damage_volume_twice};
use generate::Random;
use proved::tfs;
use std::fs::File;

const STRAY: &str = "block 9 is marked used and no file has it";

/// Volumes "v" and "w", of which "w" has map bits of blocks 9 to 12 that no file has.
fn with_broken(name: &str) -> Folder {
    let folder = with_volume(name);
    let mut image = folder.read("v");
    image[514] |= 0x1e;
    folder.write("w", &image);
    folder
}

#[test]
fn each_of_several_images_has_its_line() {
    let folder = with_broken("check_several");
    let ran = folder.tfs("check v w none v");
    assert_eq!(ran.out, b"v: consistent\nv: consistent\n");
    let told = format!(
        "tfs: w: refused 7: {STRAY} (tfs mend helps)\n\
         tfs: none: No such file or directory (os error 2)\n"
    );
    assert_eq!((ran.status, ran.err), (3, told));
    let both = "v: consistent\nv: consistent\n";
    assert_eq!(folder.tfs("check v v").text(), both);
}

/// What is told stands in the order of the images.
#[test]
fn lines_of_several_images_keep_their_order() {
    let folder = with_broken("check_order");
    let ran = folder.shell("tfs check v w v 2>&1");
    let lines = String::from_utf8(ran.out).unwrap();
    let names = ["v: ", "tfs: w: ", "v: "];
    assert_eq!(lines.lines().count(), names.len());
    let told = lines.lines().zip(names);
    told.for_each(|(line, name)| assert!(line.starts_with(name), "{lines}"));
}

#[test]
fn the_highest_status_of_several_images_counts() {
    let folder = with_broken("check_statuses");
    folder.write("held", &folder.read("v"));
    let held = File::open(folder.path("held")).unwrap();
    held.lock().unwrap();
    for (images, status) in [
        ("v v", 0),
        ("w v", 1),
        ("none w", 3),
        ("w none", 3),
        ("held none w v", 6),
    ] {
        let line = format!("check {images} --wait 0");
        assert_eq!(folder.tfs(&line).status, status, "{images}");
    }
}

#[test]
fn several_images_are_one_object() {
    let folder = with_broken("check_json");
    prints(
        &folder,
        "check v v",
        r#""images":[{"image":"v","consistent":true},{"image":"v","consistent":true}]"#,
    );
    let ran = folder.tfs("check none v w gone --json");
    assert_eq!((ran.status, ran.err.lines().count()), (3, 3));
    let missing = |name: &str| {
        let message = format!("{name}: No such file or directory (os error 2)");
        format!(r#""error":{{"status":3,"message":"{message}"}}"#)
    };
    let broken = format!(
        r#""error":{{"status":1,"refusal":7,"place":9,"message":"w: refused 7: {STRAY} (tfs mend helps)"}}"#
    );
    let (none, gone) = (missing("none"), missing("gone"));
    let images = format!(
        r#"[{{"image":"none",{none}}},{{"image":"v","consistent":true}},{{"image":"w",{broken}}},{{"image":"gone",{gone}}}]"#
    );
    let object = format!("{{\"tfs\":1,\"command\":\"check\",\"images\":{images},{none}}}\n");
    assert_eq!(String::from_utf8(ran.out).unwrap(), object);
    accepted(&object);
}

#[test]
fn all_faults_stand_behind_the_verdict() {
    let folder = with_broken("check_all");
    let consistent =
        "verdict of the library: consistent\nread by this tool from the bytes alone: no fault\n";
    assert_eq!(folder.tfs("check v --all").text(), consistent);
    let mut image = folder.read("w");
    image[514] |= 0x40;
    image[1024 + 43] = 3;
    image[1024 + 44] = b'A';
    folder.write("w", &image);
    let ran = folder.tfs("check w -A");
    let claimed = |block: u32, part: &str| {
        let claims = format!("by slot 0 (TIMING) as {part}, by slot 2 (A) as {part}");
        format!("block {block} is claimed twice: {claims}")
    };
    let (inode, content) = (claimed(3, "inode"), claimed(4, "content 0"));
    let told = format!("tfs: w: refused 6: {inode}\n");
    assert_eq!((ran.status, ran.err), (1, told));
    let listed = format!(
        "verdict of the library: refused 6
read by this tool from the bytes alone: 7 faults
  rule 6: {inode}
  rule 6: {content}
  rule 7: blocks 9 to 12: each is marked used and no file has it
  rule 7: block 14 is marked used and no file has it
"
    );
    assert_eq!(String::from_utf8(ran.out).unwrap(), listed);
}

/// The verdict stands first also where both streams go to one place.
#[test]
fn the_failure_is_told_before_the_faults() {
    let folder = with_broken("check_all_order");
    let ran = folder.shell("tfs check -A w 2>&1");
    let told = String::from_utf8(ran.out).unwrap();
    assert!(told.starts_with("tfs: w: refused 7: "), "{told}");
    assert_eq!(told.lines().count(), 4);
}

#[test]
fn faults_of_several_images_are_told_apart() {
    let folder = with_broken("check_all_several");
    let ran = folder.tfs("check --all v w none");
    let listed = "v: verdict of the library: consistent
v: read by this tool from the bytes alone: no fault
w: verdict of the library: refused 7
w: read by this tool from the bytes alone: 4 faults
  rule 7: blocks 9 to 12: each is marked used and no file has it
";
    assert_eq!(String::from_utf8(ran.out).unwrap(), listed);
    assert_eq!((ran.status, ran.err.lines().count()), (3, 2));
}

#[test]
fn each_fault_is_an_object() {
    let folder = with_broken("check_all_json");
    let faults = r#""faults":[],"consistent":true"#;
    prints(&folder, "check --all v", faults);
    let ran = folder.tfs("check --all w --json");
    let printed = String::from_utf8(ran.out).unwrap();
    accepted(&printed);
    let fault = |block: u32| {
        format!(
            r#"{{"refusal":7,"place":{block},"message":"block {block} is marked used and no file has it"}}"#
        )
    };
    let faults = [9, 10, 11, 12].map(fault).join(",");
    let begin = format!(r#"{{"tfs":1,"command":"check","faults":[{faults}],"error":{{"status":1,"#);
    assert!(printed.starts_with(&begin), "{printed}");
}

/// Damaged volumes: the status and the line are those of a plain check, the list begins with it.
#[test]
fn the_verdict_is_the_library_s_and_the_first_of_the_list() {
    let folder = Folder::new("check_all_generated");
    let mut random = Random::new(31);
    let mut met = [0; 8];
    for round in 0..140 {
        let made = any_volume(&mut random, 60);
        let (rule, other) = (round % 7 + 1, random.between(1, 7) as u32);
        let damaged = match round % 2 {
            0 => damage_volume(&mut random, &made, rule),
            _ => damage_volume_twice(&mut random, &made, (rule, other)),
        };
        let image = damaged.map_or(made.image, |(image, _)| image);
        folder.write("w", &image);
        let (plain, all) = (folder.tfs("check w"), folder.tfs("check w --all"));
        assert_eq!((plain.status, &plain.err), (all.status, &all.err));
        let refusal = tfs::check(&image).err();
        assert_eq!(refusal.is_some(), all.status == 1);
        let Some(refusal) = refusal else { continue };
        let number = refusal.number;
        let listed = String::from_utf8(all.out).unwrap();
        let verdict = format!("verdict of the library: refused {number}\n");
        assert!(listed.starts_with(&verdict), "{listed}");
        let first = listed.lines().nth(2).unwrap();
        assert!(first.starts_with(&format!("  rule {number}: ")), "{listed}");
        met[number as usize] += 1;
    }
    assert!(met[1..].iter().all(|count| *count > 5), "{met:?}");
}
