//! The numbers that the headers name are those that the library answers and that Rust has.

use crate::compiler::{folder, root, told, HEADERS};
use proved::timing;
use proved::trace::{kind, Entry, Record, Replayed};
use proved::{c, tfs};
use std::collections::BTreeMap;
use std::fs;

/// The constants of a header's enum, by name.
pub fn constants(header: &str, name: &str) -> BTreeMap<String, u32> {
    let text = fs::read_to_string(root().join("include").join(header)).expect("a header");
    let body = text
        .split_once(&format!("\nenum {name} {{\n"))
        .expect("an enum")
        .1;
    let body = body.split_once("\n};").expect("its end").0;
    let constant = |line: &str| {
        let (name, rest) = line.trim().split_once(" = ")?;
        let digits = rest.split(|c: char| !c.is_ascii_digit()).next()?;
        Some((name.to_string(), digits.parse().expect("a number")))
    };
    body.lines().filter_map(constant).collect()
}

/// What the compiler makes of these names.
pub fn values<const N: usize>(test: &str, names: [&str; N]) -> [u32; N] {
    let print = |name| format!("printf(\"%lu\\n\", (unsigned long){name});\n");
    let prints = names.map(print).concat();
    let main = format!("#include <stdio.h>\nint main(void)\n{{\n{prints}return 0;\n}}\n");
    let printed = told(
        "gcc",
        "-std=c99",
        &folder(test),
        &format!("{HEADERS}{main}"),
    );
    let values: Vec<u32> = printed.lines().map(|line| line.parse().unwrap()).collect();
    values.try_into().expect("a line for each name")
}

#[test]
fn the_version_is_that_of_the_command_line() {
    let manifest = fs::read_to_string(root().join("host/tfs/Cargo.toml")).expect("a manifest");
    let version = manifest
        .lines()
        .find_map(|line| line.strip_prefix("version = "));
    let main = "int main(void) { puts(\"\\\"\" TFS_VERSION \"\\\"\"); return 0; }";
    let source = format!("{HEADERS}#include <stdio.h>\n{main}\n");
    let told = told("gcc", "-std=c99", &folder("version"), &source);
    assert_eq!(Some(told.trim()), version);
    let numbers = [
        "TFS_VERSION_MAJOR",
        "TFS_VERSION_MINOR",
        "TFS_VERSION_PATCH",
    ];
    let numbers = values("version_numbers", numbers).map(|number| number.to_string());
    assert_eq!(told.trim().trim_matches('"'), numbers.join("."));
}

/// An empty volume.
fn volume(length: usize) -> Vec<u8> {
    let mut image = vec![0; length];
    tfs::format(&mut image, b"").expect("format");
    image
}

#[test]
fn sizes_of_a_volume_are_the_librarys() {
    let names = [
        "TFS_BLOCK_SIZE",
        "TFS_MAX_BLOCKS",
        "TFS_MIN_IMAGE",
        "TFS_SLOTS",
    ];
    let [block, most, least, slots] = values("sizes", names);
    let image = volume(((most + 1) * block) as usize);
    assert_eq!(tfs::free_bytes(&image), Ok((most - 3) * block));
    let mut short = vec![0; least as usize];
    assert_eq!(c::tfs::format(&mut short, b"").refusal, 0);
    assert_ne!(c::tfs::format(&mut short[1..], b"").refusal, 0);
    assert_eq!(tfs::list(&image, slots - 1), Ok(None));
    assert!(tfs::list(&image, slots).is_err());
}

#[test]
fn sizes_of_a_file_are_the_librarys() {
    let [size, name] = values("file", ["TFS_MAX_FILE", "TFS_MAX_NAME"]);
    let (mut image, longest) = (volume(1 << 18), vec![b'n'; name as usize + 1]);
    assert!(tfs::create(&mut image, b"A", size + 1).is_err());
    assert!(tfs::create(&mut image, b"A", size).is_ok());
    assert!(tfs::create(&mut image, &longest, 0).is_err());
    assert!(tfs::create(&mut image, &longest[1..], 0).is_ok());
}

#[test]
fn sizes_of_the_timing_file_are_the_librarys_and_rusts() {
    let [size, values] = values("timing", ["TIMING_SIZE", "TIMING_VALUES"]);
    assert_eq!(values as usize, timing::VALUES);
    let mut image = volume(16384);
    timing::store(&mut image, 1, 2, &[7; timing::VALUES]).expect("store");
    let file = tfs::list(&image, 0).expect("list").expect("a file");
    assert_eq!(
        (file.name.as_slice(), file.size),
        (b"TIMING".as_slice(), size)
    );
}

#[test]
fn kinds_of_records_are_those_of_rust() {
    let rust = [
        ("TFS_MALFORMED_RECORD", 0),
        ("TFS_CREATE", kind::CREATE),
        ("TFS_REMOVE", kind::REMOVE),
        ("TFS_READ", kind::READ),
        ("TFS_WRITE", kind::WRITE),
        ("TFS_FREE_BYTES", kind::FREE_BYTES),
    ];
    let rust = rust.map(|(name, number)| (name.to_string(), number as u32));
    assert_eq!(constants("tfs_trace.h", "tfs_kind"), BTreeMap::from(rust));
}

/// A trace of one record, free bytes of this number.
fn free_bytes(value: u32) -> Vec<u8> {
    let kind = kind::FREE_BYTES;
    let entry = Entry {
        kind,
        value: value.into(),
        ..Default::default()
    };
    let mut out = vec![0; 64];
    let length = proved::trace::write(
        &mut out,
        &Record {
            entry,
            ..Default::default()
        },
    );
    out.truncate(length.expect("written"));
    out
}

#[test]
fn outcomes_of_a_replay_are_the_librarys_and_rusts() {
    let outcomes = constants("tfs_trace.h", "tfs_outcome");
    let mut image = volume(8192);
    let right = free_bytes(tfs::free_bytes(&image).expect("free bytes"));
    let cases: [(&str, &[u8], Replayed); 3] = [
        ("TFS_ALL_REPLAYED", &right, Replayed::All(1)),
        ("TFS_STOP_MALFORMED", &right[1..], Replayed::Malformed(1)),
        ("TFS_STOP_DIFFERS", &free_bytes(1), Replayed::Differs(1)),
    ];
    for (name, trace, outcome) in cases {
        let number = c::trace::replay(&mut image, trace).outcome;
        assert_eq!(number, u64::from(outcomes[name]), "{name}");
        assert_eq!(proved::trace::replay(&mut image, trace), Ok(outcome));
    }
    let refused = c::trace::replay(&mut [], &right);
    assert_eq!(refused.outcome, u64::from(outcomes["TFS_REPLAY_REFUSED"]));
    assert_eq!(outcomes.len(), 4);
}
