//! What a volume holds, sound or broken.

mod bench;

use bench::json::{accepted, fails, prints, with_volume};
use bench::Folder;
use generate::tfs::{any_volume, damage_volume};
use generate::Random;
use proved::tfs;

const TEXT: &str = "verdict of the library: consistent
read by this tool from the bytes alone: no fault
volume name: PUMP
image: 65536 bytes, 0 behind the volume
blocks: 128, 5 used, 123 free
bytes: 2560 used, 62976 free
slots: 25, 1 used, 24 free
slot inode  size blocks name
   0     3    22      2 TIMING
";

#[test]
fn a_volume_is_told() {
    let folder = with_volume("info");
    assert_eq!(folder.tfs("info v").text(), TEXT);
    folder.tfs("make e --size 1536").granted();
    let empty = folder.tfs("info e").text();
    let end = "volume name: none\nimage: 1536 bytes, 0 behind the volume
blocks: 3, 3 used, 0 free\nbytes: 1536 used, 0 free\nslots: 25, 0 used, 25 free
slot inode  size blocks name\n";
    assert!(empty.ends_with(end), "{empty}");
}

#[test]
fn programs_are_told_the_same() {
    let folder = with_volume("info_json");
    prints(
        &folder,
        "info v",
        r#""consistent":true,"label":"PUMP","length":65536,"behind":0,"block_size":512,"blocks":{"all":128,"used":5,"free":123},"slots":{"all":25,"used":1,"free":24},"files":[{"slot":0,"inode":3,"size":22,"blocks":2,"name":"TIMING"}]"#,
    );
}

#[test]
fn what_lies_behind_the_volume_is_counted() {
    let folder = with_volume("info_behind");
    let mut image = folder.read("v");
    image.resize(65_536 + 300, 7);
    folder.write("v", &image);
    let told = folder.tfs("info v").text();
    assert_eq!(told, TEXT.replace("65536 bytes, 0 ", "65836 bytes, 300 "));
    folder.tfs("make large --size 3G").granted();
    let told = folder.tfs("info large").text();
    let length = "image: 3221225472 bytes, 3219128320 behind the volume\nblocks: 4096, ";
    assert!(told.contains(length), "{told}");
}

#[test]
fn a_stream_has_no_length() {
    let folder = with_volume("info_stream");
    let told = folder.shell("cat v | tfs info /dev/stdin").text();
    let stream = TEXT.replace("65536 bytes, 0 behind the volume", "a stream");
    assert_eq!(told, stream);
    let told = folder.shell("cat v | tfs info /dev/stdin --json").text();
    assert!(told.contains(r#""length":null,"behind":null,"#), "{told}");
}

/// The numbers are those of the library's requests.
#[test]
fn free_bytes_and_files_are_the_library_s() {
    let folder = Folder::new("info_generated");
    let mut random = Random::new(41);
    for _ in 0..60 {
        let made = any_volume(&mut random, 200);
        folder.write("v", &made.image);
        let told = folder.tfs("info v").text();
        let free = tfs::free_bytes(&made.image).unwrap();
        assert!(told.contains(&format!(" used, {free} free\n")), "{told}");
        let files: Vec<&str> = told.lines().skip(8).collect();
        assert_eq!(files.len(), made.files.len());
        for (line, file) in files.iter().zip(&made.files) {
            let numbers = [file.slot, file.inode as usize, file.size as usize];
            let blocks = 1 + file.blocks.len();
            let mut words = line.split_whitespace();
            for number in numbers.into_iter().chain([blocks]) {
                assert_eq!(words.next(), Some(number.to_string().as_str()), "{line}");
            }
        }
    }
}

#[test]
fn a_broken_volume_is_shown_as_far_as_it_can_be_read() {
    let folder = with_volume("info_broken");
    let mut image = folder.read("v");
    image[514] |= 0x1e;
    image[4..20].fill(b'x');
    image[1044..1048].fill(0xff);
    folder.write("v", &image);
    let ran = folder.tfs("info v");
    let cause = "refused 3: the volume name has no end (no zero in its 16 bytes)";
    assert_eq!((ran.status, ran.err), (1, format!("tfs: v: {cause}\n")));
    let told = "verdict of the library: refused 3
read by this tool from the bytes alone: 6 faults
volume name: without an end
image: 65536 bytes, 0 behind the volume
blocks: 128, 5 used, 119 free, 4 marked used and of no file
bytes: 2560 used, 60928 free
slots: 25, 1 used, 23 free, 1 neither free nor used
slot inode  size blocks name
   0     3    22      2 TIMING
   1 4294967295     -      0 (no name)
";
    assert_eq!(String::from_utf8(ran.out).unwrap(), told);
    let message = format!("v: {cause}");
    fails(&folder, "info v", 1, &[("refusal", "3")], &message);
}

/// Damaged volumes have the status and the line of a check, and something is shown all the same.
#[test]
fn the_failure_is_that_of_a_check() {
    let folder = Folder::new("info_damaged");
    let mut random = Random::new(42);
    let mut refused = 0;
    for round in 0..21 {
        let made = any_volume(&mut random, 60);
        let Some((image, fault)) = damage_volume(&mut random, &made, round % 7 + 1) else {
            continue;
        };
        folder.write("v", &image);
        let (check, info) = (folder.tfs("check v"), folder.tfs("info v"));
        assert_eq!((info.status, info.err), (1, check.err));
        let verdict = format!("verdict of the library: refused {}\n", fault.number);
        assert!(info.out.starts_with(verdict.as_bytes()));
        let object = folder.tfs("info v --json");
        accepted(&String::from_utf8(object.out).unwrap());
        refused += 1;
    }
    assert!(refused > 14, "{refused}");
}

#[test]
fn what_is_no_volume_is_refused_with_its_length() {
    let folder = Folder::new("info_short");
    folder.write("v", &[7; 1535]);
    let ran = folder.tfs("info v");
    let cause = "tfs: v: refused 1: the image has 1535 bytes, under 1536\n";
    assert_eq!((ran.status, ran.err.as_str()), (1, cause));
    let told = String::from_utf8(ran.out).unwrap();
    let length = "\nimage: 1535 bytes, 1535 behind the volume\nblocks: 0, 0 used, 0 free\n";
    assert!(told.contains(length), "{told}");
    let name = "\nvolume name: missing, the image is too short\n";
    assert!(told.contains(name), "{told}");
}
