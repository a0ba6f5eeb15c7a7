//! Names and paths within an image, given as they are printed.

mod bench;

use bench::rom::{directory, file, image};
use bench::{some, Folder};
use std::ffi::OsStr;
use std::fs;
use std::os::unix::ffi::OsStrExt;

/// The strings of a member in an object, as they are read from JSON.
fn strings(object: &str, member: &str) -> Vec<String> {
    let start = format!("\"{member}\":\"");
    let raw = object
        .split(&start)
        .skip(1)
        .map(|rest| rest.split("\"}").next().unwrap());
    raw.map(|text| text.replace("\\\"", "\"").replace("\\\\", "\\"))
        .collect()
}

#[test]
fn names_of_any_byte_can_be_given_back() {
    let folder = Folder::new("escaped_names");
    folder.tfs("make v --size 64K").granted();
    let bytes: Vec<u8> = (1..=255).collect();
    let names: Vec<&[u8]> = bytes.chunks(15).collect();
    for (number, name) in names.iter().enumerate() {
        folder.write("in", &some(number));
        let escaped: String = name.iter().map(|byte| format!("\\x{byte:02X}")).collect();
        folder
            .run(&["put", "v", "in", "-x", "-n", &escaped])
            .granted();
    }
    let listed = strings(&folder.tfs("list v --json").text(), "name");
    assert_eq!(listed.len(), names.len());
    for (number, (name, listed)) in names.iter().zip(&listed).enumerate() {
        folder.run(&["get", "v", listed, "out", "-xf"]).granted();
        assert!(folder.read("out") == some(number), "{listed}");
        if !name.contains(&b'/') {
            folder.run(&["get", "-x", "v", listed]).granted();
            let host = folder.path("").join(OsStr::from_bytes(name));
            assert!(fs::read(host).unwrap() == some(number), "{listed}");
        }
        folder.run(&["remove", "v", listed, "--escaped"]).granted();
    }
    assert!(folder.tfs("list v").granted().is_empty());
}

#[test]
fn paths_of_any_byte_can_be_given_back() {
    let folder = Folder::new("escaped_paths");
    let name: Vec<u8> = (1..=255).collect();
    let inner = vec![file(&name, b"content")];
    folder.write("i", &image(&[file(b"a", b""), directory(b"x/y", inner)]));
    let paths = strings(&folder.tfs("rom list i --json").text(), "path");
    assert_eq!(paths.len(), 3);
    assert!(paths[2].starts_with("x\\x2fy/\\x01"), "{}", paths[2]);
    let content = folder.run(&["rom", "cat", "i", &paths[2], "-x"]);
    assert_eq!(content.granted(), b"content");
}

#[test]
fn a_label_may_be_escaped() {
    let folder = Folder::new("escaped_label");
    folder
        .run(&["make", "v", "-s", "64k", "-xl", "A\\xff\\x5c"])
        .granted();
    assert_eq!(&folder.read("v")[4..8], b"A\xff\\\0");
    assert!(folder
        .tfs("dump v header -j")
        .text()
        .contains(r#""label":"A\\xff\\x5c""#));
}

#[test]
fn a_bad_escape_is_refused() {
    let folder = Folder::new("escaped_badly");
    for (line, command) in [
        ("get v a\\x1 out -x", "get"),
        ("remove v a\\x1 -x", "remove"),
        ("put v TIMING --escaped --name a\\x1", "put"),
        ("rom cat i b/a\\x1 -x", "rom cat"),
    ] {
        let message = format!("{command}: a\\x1: a backslash without xNN behind it");
        folder.refused(line, 2, &message);
    }
}
