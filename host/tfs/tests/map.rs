//! The map of a volume: text, picture and list.

mod bench;

use bench::json::{accepted, fails, prints, with_volume, NOTHING};
use bench::Folder;
use generate::tfs::{any_volume, damage_volume, damage_volume_twice};
use generate::Random;

/// A volume "v" of 12 blocks with a file of two content blocks, of which the second is marked free,
/// and with a stray bit at block 9.
fn with_faults(name: &str) -> Folder {
    let folder = Folder::new(name);
    folder.tfs("make v --size 6K --label PUMP").granted();
    folder.write("LOG", &[b'7'; 1000]);
    folder.tfs("put v LOG").granted();
    let mut image = folder.read("v");
    image[514..516].copy_from_slice(&[0b10, 0b0001_1111]);
    folder.write("v", &image);
    folder
}

const TEXT: &str = "   0  #%/Aa?.. .!..

# header  % map  / directory  . free  A inode  a content
! marked used, no file has it: 1
? in use, marked free: 1

file  slot        size  blocks  name
Aa       0        1000       3  LOG

volume PUMP: 12 blocks, 6 in use, 5 free
read by this tool from the bytes alone: 2 faults
";

#[test]
fn a_broken_volume_is_drawn_too() {
    let folder = with_faults("map_text");
    assert_eq!(folder.tfs("check v").status, 1);
    assert_eq!(folder.tfs("map v").text(), TEXT);
    folder.write("short", b"7");
    let told = folder.tfs("map short").text();
    let end = "volume name missing, the image is too short: 0 blocks, 0 in use, 0 free
read by this tool from the bytes alone: 1 fault
  rule 1: the image has 1 byte, under 1536\n";
    assert!(told.ends_with(end), "{told}");
}

#[test]
fn a_fault_at_no_block_has_its_words() {
    let folder = with_volume("map_words");
    let mut image = folder.read("v");
    image[0] = 7;
    // The second slot gets a name and no inode.
    image[1024 + 24] = b'X';
    folder.write("v", &image);
    let all = folder.tfs("check v --all");
    let lines = "  rule 2: the magic number is 117444257, not 3745
  rule 4: slot 1 has a name and no inode\n";
    assert!(String::from_utf8(all.out).unwrap().ends_with(lines));
    let told = folder.tfs("map v").text();
    let end = format!("read by this tool from the bytes alone: 2 faults\n{lines}");
    assert!(told.ends_with(&end), "{told}");
    let picture = folder.tfs("map v --svg -").text();
    for line in lines.lines() {
        assert!(picture.contains(&format!(">{}</text>", line.trim())));
    }
}

#[test]
fn rows_are_as_long_as_the_terminal_allows() {
    let folder = with_volume("map_columns");
    let first_row = |columns: &str| {
        let map = folder.shell(&format!("{columns} tfs map v")).text();
        map.lines().next().unwrap().len()
    };
    assert_eq!(first_row("unset COLUMNS;"), 77);
    assert_eq!(first_row("COLUMNS=wide"), 77);
    assert_eq!(first_row("COLUMNS=500"), 77);
    assert_eq!(first_row("COLUMNS=60"), 41);
    assert_eq!(first_row("COLUMNS=40"), 23);
}

#[test]
fn colour_is_for_terminals_and_for_those_who_ask() {
    let folder = with_faults("map_colour");
    let coloured = folder.tfs("map v -C").text();
    assert!(coloured.contains("\x1b[97;45m?\x1b[0m"), "{coloured:?}");
    assert!(!folder.tfs("map v").text().contains('\x1b'));
    if let Some(shown) = folder.on_terminal("tfs map v") {
        assert_eq!(shown.replace('\r', ""), coloured);
    }
    if let Some(shown) = folder.on_terminal("NO_COLOR=1 tfs map v") {
        assert_eq!(shown.replace('\r', ""), TEXT);
    }
}

#[test]
fn a_picture_replaces_nothing_unasked() {
    let folder = with_faults("map_svg");
    assert_eq!(folder.tfs("map v --svg out.svg").text(), "");
    let picture = folder.read("out.svg");
    assert!(picture.starts_with(b"<?xml ") && picture.ends_with(b"</svg>\n"));
    let text = String::from_utf8(picture.clone()).unwrap();
    assert_eq!(text.matches("<g class=\"block\">").count(), 12);
    assert!(text.contains("<title>v</title>"));
    folder.write("out.svg", b"mine");
    let exists = "out.svg: exists already (--force replaces it)";
    folder.refused("map v --svg out.svg", 3, exists);
    folder.tfs("map v --svg out.svg --force").granted();
    assert!(folder.read("out.svg") == picture);
    let missing = "no/out: there is no folder no";
    folder.refused("map v --svg no/out", 3, missing);
    for option in ["", " --force"] {
        let own = "./v: is the image itself";
        folder.refused(&format!("map v --svg ./v{option}"), 3, own);
    }
}

#[test]
fn a_picture_can_go_to_a_stream() {
    let folder = with_faults("map_stream");
    folder.tfs("map v --svg out").granted();
    let picture = folder.read("out");
    for stream in ["-", "/dev/stdout"] {
        let ran = folder.tfs(&format!("map v --svg {stream}"));
        assert!(ran.granted() == picture, "{stream}");
        let why = "map: --json may be mixed with the picture on a stream; give a plain file";
        let line = format!("map v --svg {stream}");
        fails(&folder, &line, 2, NOTHING, why);
    }
    let ran = folder.tfs("map v --svg other --json").text();
    assert_eq!(ran, folder.tfs("map v --json").text());
    assert!(folder.read("other") == picture);
}

#[test]
fn each_block_is_an_object() {
    let folder = with_faults("map_json");
    let plain = |number: u32, kind: &str| {
        format!(r#"{{"number":{number},"kind":"{kind}","files":[],"faults":[]}}"#)
    };
    let stray = "block 9 is marked used and no file has it";
    let missing = "block 5 belongs to LOG and is marked free";
    let blocks = [
        plain(0, "header"),
        plain(1, "map"),
        plain(2, "directory"),
        r#"{"number":3,"kind":"inode","files":[{"slot":0,"name":"LOG","content":null}],"faults":[]}"#.to_string(),
        r#"{"number":4,"kind":"content","files":[{"slot":0,"name":"LOG","content":0}],"faults":[]}"#.to_string(),
        format!(r#"{{"number":5,"kind":"content","files":[{{"slot":0,"name":"LOG","content":1}}],"faults":["{missing}"]}}"#),
        plain(6, "free"),
        plain(7, "free"),
        plain(8, "free"),
        format!(r#"{{"number":9,"kind":"stray","files":[],"faults":["{stray}"]}}"#),
        plain(10, "free"),
        plain(11, "free"),
    ];
    let fault = |block: u32, message: &str| {
        format!(r#"{{"refusal":7,"place":{block},"message":"{message}"}}"#)
    };
    let faults = [fault(5, missing), fault(9, stray)].join(",");
    let members = format!(
        r#""label":"PUMP","blocks":[{}],"faults":[{faults}]"#,
        blocks.join(",")
    );
    prints(&folder, "map v", &members);
}

/// The part of an object behind the last list of faults' name.
fn last_faults(object: &str) -> &str {
    let at = object.rfind("],\"faults\":[{\"refusal\"").unwrap();
    object[at + 2..].split("}]").next().unwrap()
}

/// Damaged volumes are drawn with status 0, and have the faults that a check of all lists.
#[test]
fn a_map_has_the_faults_of_a_check() {
    let folder = Folder::new("map_generated");
    let mut random = Random::new(43);
    let mut damaged = 0;
    for round in 0..28 {
        let made = any_volume(&mut random, 60);
        let (rule, other) = (round % 7 + 1, random.between(1, 7) as u32);
        let image = match round % 2 {
            0 => damage_volume(&mut random, &made, rule),
            _ => damage_volume_twice(&mut random, &made, (rule, other)),
        };
        let Some((image, _)) = image else { continue };
        folder.write("v", &image);
        let object = folder.tfs("map v --json").text();
        accepted(&object);
        let blocks = image.len() / 512 * usize::from(image.len() >= 1536);
        assert_eq!(object.matches("\"number\":").count(), blocks);
        let checked = String::from_utf8(folder.tfs("check v --all --json").out).unwrap();
        let faults = last_faults(&object);
        assert!(checked.contains(faults), "{checked}\n{object}");
        damaged += 1;
    }
    assert!(damaged > 20, "{damaged}");
}
