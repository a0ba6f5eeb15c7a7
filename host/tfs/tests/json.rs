//! What programs read: one JSON object on one line.

mod bench;

use bench::json::{prints, with_volume};
use bench::rom::{file, image, sample};
use bench::Folder;
use std::ops::Range;

#[test]
fn facts_of_a_volume() {
    let folder = with_volume("json_volume");
    let blocks = r#""name":"TIMING","size":22,"blocks":1"#;
    prints(&folder, "check v", r#""consistent":true"#);
    let file = r#""files":[{"slot":0,"inode":3,"size":22,"name":"TIMING"}]"#;
    prints(&folder, "list v", file);
    prints(&folder, "free v", r#""free":62976"#);
    prints(&folder, "mend v", r#""cleared":0"#);
    prints(&folder, "put v TIMING --replace", blocks);
    prints(&folder, "put v TIMING --replace --blocks", blocks);
    prints(&folder, "get v TIMING out", blocks);
    folder.tfs("make empty --size 64K").granted();
    prints(&folder, "list empty", r#""files":[]"#);
}

#[test]
fn facts_of_traces() {
    let folder = with_volume("json_trace");
    folder.tfs("make w --size 64K").granted();
    prints(&folder, "replay w t", r#""replayed":2"#);
    let lines = "create \"A\\x22\" 3 -> refused 10\nwrite \"A\" 1 \"\\x00b\" -> 2\n\
                 read \"A\" 0 9 -> \"\\xff\"\nremove \"A\" -> granted\nfree -> 512\n";
    folder.write("lines", lines.as_bytes());
    folder.tfs("trace make lines u").granted();
    let records = [
        r#"{"request":"create","name":"A\"","size":3,"refused":10}"#,
        r#"{"request":"write","name":"A","offset":1,"bytes":"\\x00b","count":2}"#,
        r#"{"request":"read","name":"A","offset":0,"length":9,"bytes":"\\xff"}"#,
        r#"{"request":"remove","name":"A"}"#,
        r#"{"request":"free","free":512}"#,
    ];
    let records = format!("\"records\":[{}]", records.join(","));
    prints(&folder, "trace show u", &records);
}

#[test]
fn facts_of_the_timing_file() {
    let folder = Folder::new("json_timing");
    folder.tfs("make v --size 64K").granted();
    let values: Vec<String> = (11..39).map(|value: u32| value.to_string()).collect();
    folder.write("values", values.join(" ").as_bytes());
    folder
        .tfs("timing store v --board 7 --maker 4294967295 values")
        .granted();
    let values = format!("\"values\":[{}]", values.join(","));
    let line = "timing boot v --board 7 --maker 0xffff_ffff";
    prints(&folder, line, &values);
    let shown = format!("\"board\":7,\"maker\":4294967295,{values}");
    prints(&folder, "timing show v", &shown);
}

/// The parts of a small damaged volume: where they lie, and their members before and behind the bytes.
const PARTS: [(&str, Range<usize>, &str, &str); 4] = [
    (
        "header",
        0..512,
        r#""part":"header""#,
        r#""magic":3745,"label":"PUMP","blocks":4"#,
    ),
    (
        "map",
        512..1024,
        r#""part":"map""#,
        r#""reserved":[0,1,2,3],"free":[],"past":1"#,
    ),
    (
        "slot 0",
        1024..1044,
        r#""part":"slot","number":0"#,
        r#""state":"used","inode":3,"name":"TIMING","leftovers":"OL\\x01""#,
    ),
    (
        "inode 0x3",
        1536..2048,
        r#""part":"inode","number":3"#,
        r#""size":22,"content":[4],"unused":[150994944]"#,
    ),
];

#[test]
fn parts_of_a_volume() {
    let folder = with_volume("json_dump");
    let mut image = folder.read("v");
    image[1035..1038].copy_from_slice(b"OL\x01");
    image.truncate(1536 + 512);
    image[1536 + 12] = 9;
    folder.write("v", &image);
    for (part, range, before, behind) in PARTS {
        let offset = range.start;
        let hex: String = image[range]
            .iter()
            .map(|byte| format!("{byte:02x}"))
            .collect();
        let place = format!("\"offset\":{offset},\"bytes\":\"{hex}\",\"cut_off\":false");
        prints(
            &folder,
            &format!("dump v {part}"),
            &format!("{before},{place},{behind}"),
        );
    }
}

#[test]
fn a_part_that_is_cut_off_has_no_meaning() {
    let folder = with_volume("json_cut");
    folder.write("v", &folder.read("v")[..1030]);
    let members = r#""part":"slot","number":0,"offset":1024,"bytes":"000000035449","cut_off":true"#;
    prints(&folder, "dump v slot 0", members);
}

/// The entries of the sample, each with its header and whether it is executable.
const ENTRIES: [(u32, bool, &str); 10] = [
    (
        32,
        false,
        r#""type":"directory","size":0,"path":".","links_to":32"#,
    ),
    (
        64,
        false,
        r#""type":"hardlink","size":0,"path":"..","links_to":32"#,
    ),
    (96, false, r#""type":"file","size":100,"path":"boot.cfg""#),
    (240, false, r#""type":"directory","size":0,"path":"bin""#),
    (272, true, r#""type":"file","size":20,"path":"bin/run""#),
    (
        336,
        false,
        r#""type":"directory","size":0,"path":"bin/low""#,
    ),
    (
        368,
        false,
        r#""type":"symlink","size":7,"path":"to","target":"bin/run""#,
    ),
    (
        416,
        false,
        r#""type":"hardlink","size":0,"path":"again","links_to":96"#,
    ),
    (
        448,
        false,
        r#""type":"char","size":0,"path":"tty","major":5,"minor":1"#,
    ),
    (480, false, r#""type":"fifo","size":0,"path":"pipe""#),
];

#[test]
fn facts_of_a_romfs_image() {
    let folder = Folder::new("json_rom");
    folder.write("i", &sample());
    prints(&folder, "rom check i", r#""accepted":true"#);
    let entries = ENTRIES.map(|(header, executable, rest)| {
        format!("{{\"header\":{header},\"executable\":{executable},{rest}}}")
    });
    prints(
        &folder,
        "rom list i",
        &format!("\"entries\":[{}]", entries.join(",")),
    );
}

#[test]
fn facts_of_an_extraction() {
    let folder = Folder::new("json_extract_all");
    folder.write("i", &image(&[file(b"a", b"1"), file(b"b\\", b"2")]));
    let members = r#""extracted":["a","b\\x5c"],"skipped":[]"#;
    prints(&folder, "rom extract i out", members);
}

#[test]
fn commands_without_facts_do_not_know_the_option() {
    let folder = with_volume("json_unknown");
    for line in [
        "make w --size 64K",
        "remove v TIMING",
        "trace make l t",
        "rom cat i a",
        "man",
    ] {
        let ran = folder.tfs(&format!("{line} --json"));
        assert_eq!(ran.status, 2, "{line}");
        assert!(ran.err.contains("unknown option --json"), "{}", ran.err);
        assert!(ran.out.is_empty(), "{line}");
    }
}
