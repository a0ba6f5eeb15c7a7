//! Requests recorded in a trace as they are made.

mod bench;

use bench::{some, Folder};
use std::fs;
use std::os::unix::fs::symlink;

const EMPTY: &str = "v: refused 13: no file has the name in";

/// A folder with an empty volume, a copy of it as it was, and a host file.
fn with_volume(name: &str) -> Folder {
    let folder = Folder::new(name);
    folder.tfs("make v --size 64K").granted();
    folder.write("start", &folder.read("v"));
    folder.write("in", b"3 minutes\n");
    folder
}

/// What a trace shows.
fn shown(folder: &Folder) -> String {
    folder.tfs("trace show t").text()
}

/// Runs a command that is refused but recorded: the trace alone changes.
fn refused(folder: &Folder, line: &str, message: &str) {
    let before = folder.read("v");
    let ran = folder.tfs(line);
    assert_eq!((ran.status, ran.err), (1, format!("tfs: {message}\n")));
    assert!(folder.read("v") == before);
}

/// What the session below records.
const SESSION: &str = "\
create \"in\" 10 -> granted
write \"in\" 0 \"3 minutes\\x0a\" -> 10
read \"in\" 0 65024 -> \"3 minutes\\x0a\"
read \"in\" 0 65024 -> \"3 minutes\\x0a\"
free -> 62976
create \"in\" 10 -> refused 10
remove \"in\" -> granted
create \"in\" 6 -> granted
write \"in\" 0 \"2 off\\x0a\" -> 6
remove \"new\" -> refused 13
create \"new\" 6 -> granted
write \"new\" 0 \"2 off\\x0a\" -> 6
remove \"in\" -> granted
remove \"in\" -> refused 13
read \"in\" 0 65024 -> refused 13
";

#[test]
fn a_session_is_recorded_and_replayed() {
    let folder = with_volume("record");
    folder.tfs("put v in --record t").granted();
    folder.tfs("get v in out --record t").granted();
    assert_eq!(
        folder.tfs("get v in - --record t").granted(),
        b"3 minutes\n"
    );
    assert_eq!(folder.tfs("free v --record t").text(), "62976\n");
    refused(
        &folder,
        "put v in --record t",
        "v: refused 10: in stands already, in slot 0",
    );
    folder.write("in", b"2 off\n");
    folder.tfs("put v in --replace --record t").granted();
    folder
        .tfs("put v in --replace --name new --record t")
        .granted();
    folder.tfs("remove v in --record=t").granted();
    refused(&folder, "remove v in --record t", EMPTY);
    refused(&folder, "get v in out --record t", EMPTY);
    assert_eq!(shown(&folder), SESSION);
    let replayed = folder.tfs("replay start t --out end").text();
    assert_eq!(replayed, "records replayed: 15\n");
    assert!(folder.read("end") == folder.read("v"));
}

#[test]
fn large_files_are_recorded_whole() {
    let folder = Folder::new("record_large");
    folder.tfs("make v --size 2M").granted();
    folder.write("start", &folder.read("v"));
    folder.write("in", &some(65_024));
    folder.tfs("put v in --record t").granted();
    folder.tfs("get v in out --record t").granted();
    folder.write("in", &some(65_025));
    refused(
        &folder,
        "put v in --name b --record t",
        "v: refused 9: the size is over 65024 bytes, the most that a file may have",
    );
    let replayed = folder.tfs("replay start t --out end").text();
    assert_eq!(replayed, "records replayed: 4\n");
    assert!(folder.read("end") == folder.read("v"));
}

#[test]
fn a_refused_volume_is_recorded_as_such() {
    let folder = with_volume("record_refused");
    folder.write("v", b"short");
    refused(
        &folder,
        "free v --record t",
        "v: refused 1: the image has 5 bytes, under 1536",
    );
    assert_eq!(shown(&folder), "free -> refused 1\n");
}

#[test]
fn what_a_refusal_takes_back_is_not_recorded() {
    let folder = with_volume("record_taken_back");
    folder.tfs("put v in --record t").granted();
    let before = folder.read("t");
    folder.write("in", &some(65_024));
    let message = |free: u32| {
        format!("v: refused 12: too few free blocks: 128 needed with the inode, {free} free")
    };
    refused(&folder, "put v in --replace --record t", &message(125));
    assert!(folder.read("t") == before);
    // Without the remove, the refusal is recorded.
    refused(
        &folder,
        "put v in --replace --name b --record t",
        &message(123),
    );
    assert!(
        shown(&folder).ends_with("remove \"b\" -> refused 13\ncreate \"b\" 65024 -> refused 12\n")
    );
    assert_eq!(folder.tfs("replay start t").status, 0);
}

#[test]
fn a_malformed_trace_is_not_gone_on_with() {
    let folder = with_volume("record_malformed");
    folder.tfs("put v in").granted();
    folder.write("t", b"\x05\x07\x04");
    let message = "t: record 2 at byte 2 is malformed";
    for line in [
        "put v in --name b --record t",
        "get v in out --record t",
        "remove v in --record t",
        "free v --record t",
    ] {
        folder.refused(line, 5, message);
    }
}

#[test]
fn the_trace_is_a_file_of_its_own() {
    let folder = with_volume("record_apart");
    folder.tfs("put v in").granted();
    folder.refused("free v --record v", 3, "v: is the image itself");
    folder.refused("remove v in --record ./v", 3, "./v: is the image itself");
    folder.refused("get v in t --record t", 3, "t: is the trace itself");
    folder.refused("get v in t --record ./t", 3, "t: is the trace itself");
    folder.write("t", b"");
    folder.refused("get v in t --record ./t", 3, "t: is the trace itself");
    fs::create_dir(folder.path("dir")).unwrap();
    folder.refused(
        "free v --record dir",
        3,
        "dir: Is a directory (os error 21)",
    );
    for line in ["put v in --name b", "get v in out", "remove v in", "free v"] {
        let missing = "no/t: there is no folder no";
        folder.refused(&format!("{line} --record no/t"), 3, missing);
        for path in ["", "new/", "new/."] {
            let message = format!("{path}: not the name of a file");
            folder.refused(&format!("{line} --record={path}"), 3, &message);
        }
    }
}

#[test]
fn commands_that_do_not_reach_the_volume_record_nothing() {
    let folder = with_volume("record_nothing");
    let missing = "no: No such file or directory (os error 2)";
    folder.refused("free no --record t", 3, missing);
    folder.refused("put v no --record t", 3, missing);
    folder.refused("put v - --record t", 2, "put: -: give a --name");
    folder.tfs("put v in --name a/b").granted();
    folder.refused("get v a/b --record t", 2, "get: a/b: give a HOSTFILE");
}

/// Where the host file of a get cannot be written, the trace stays too.
#[test]
fn a_get_that_fails_records_nothing() {
    let folder = with_volume("record_get_fails");
    folder.tfs("put v in --record t").granted();
    let missing = "no/out: there is no folder no";
    folder.refused("get v in no/out --record t", 3, missing);
}

/// Runs a command with files of 4 KiB at most, which fails with nothing changed or left over.
fn fails_half_way(folder: &Folder, line: &str) {
    let read_all = || {
        folder
            .names()
            .into_iter()
            .map(|name| folder.read(&name))
            .collect()
    };
    let (names, before): (_, Vec<_>) = (folder.names(), read_all());
    let ran = folder.shell(&format!("trap '' XFSZ; ulimit -f 8; exec tfs {line}"));
    assert_eq!(ran.status, 3, "{line}");
    assert!(
        ran.err.ends_with(": File too large (os error 27)\n"),
        "{}",
        ran.err
    );
    assert_eq!(folder.names(), names, "{line}");
    assert!(read_all() == before, "{line}");
}

#[test]
fn a_trace_is_never_half_appended() {
    let folder = with_volume("record_half_way");
    folder.tfs("put v in --record t").granted();
    // The image is too large to be written, the trace is not.
    fails_half_way(&folder, "put v in --name b --record t");
    fails_half_way(&folder, "remove v in --record t");
    // The trace is too large.
    folder.write("in", &some(9_000));
    folder.tfs("put v in --name c --record t").granted();
    fails_half_way(&folder, "free v --record t");
    fails_half_way(&folder, "get v in - --record t");
    fails_half_way(&folder, "get v none out --record t");
}

#[test]
fn a_link_to_a_trace_goes_on_leading_to_it() {
    let folder = with_volume("record_link");
    folder.write("t", b"");
    symlink("t", folder.path("link")).unwrap();
    folder.tfs("free v --record link").granted();
    assert!(fs::symlink_metadata(folder.path("link"))
        .unwrap()
        .is_symlink());
    assert_eq!(shown(&folder), "free -> 64000\n");
}
