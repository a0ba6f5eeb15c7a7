//! Streams: written to and never replaced, and left quietly when nobody reads.

mod bench;

use bench::rom::{file, image};
use bench::{some, Folder, Ran};
use std::fs;
use std::io::pipe;
use std::os::unix::fs::{FileTypeExt, MetadataExt};
use std::process::Command;

fn with_volume(name: &str) -> Folder {
    let folder = Folder::new(name);
    folder.tfs("make v --size 256K").granted();
    folder.write("in", &some(3000));
    folder.tfs("put v in").granted();
    folder
}

#[test]
fn a_host_file_is_replaced_only_by_force() {
    let folder = with_volume("streams_force");
    folder.write("out", b"kept");
    let message = "out: exists already (--force replaces it)";
    folder.refused("get v in out", 3, message);
    folder.refused("get v in out --record t", 3, message);
    folder.tfs("get v in out --force").granted();
    assert!(folder.read("out") == some(3000));
}

/// Behind what stands in the file already, in the same file.
#[test]
fn standard_output_is_written_to_where_it_is_a_file() {
    let folder = with_volume("streams_output");
    for path in ["-", "/dev/stdout", "/dev/fd/1", "/proc/self/fd/1"] {
        folder.write("out", b"");
        let before = fs::metadata(folder.path("out")).unwrap().ino();
        let line = format!("{{ echo a; tfs get v in {path}; echo b; }} >out");
        folder.shell(&line).granted();
        assert!(folder.read("out") == [b"a\n", &some(3000)[..], b"b\n"].concat());
        assert_eq!(fs::metadata(folder.path("out")).unwrap().ino(), before);
    }
}

#[test]
fn standard_error_is_written_to() {
    let folder = with_volume("streams_error");
    for path in ["/dev/stderr", "/dev/fd/2", "/proc/self/fd/2"] {
        let line = format!("{{ echo a >&2; tfs get v in {path} --blocks; }} 2>out");
        assert_eq!(folder.shell(&line).text(), "content blocks: 6\n");
        assert!(folder.read("out") == [b"a\n", &some(3000)[..]].concat());
    }
}

#[test]
fn another_open_file_is_written_to_behind_its_end() {
    let folder = with_volume("streams_open");
    for path in ["/dev/fd/3", "/proc/self/fd/3"] {
        folder.write("out", b"a");
        folder
            .shell(&format!("tfs get v in {path} 3>>out"))
            .granted();
        assert!(folder.read("out") == [b"a", &some(3000)[..]].concat());
        let piped = folder.shell(&format!("tfs get v in {path} 3>&1 >out | cat"));
        assert!(piped.granted() == some(3000));
    }
}

#[test]
fn a_descriptor_that_is_not_open_is_told() {
    let folder = with_volume("streams_not_open");
    for path in ["/dev/fd/99", "/proc/self/fd/99"] {
        let message = format!("{path}: that descriptor is not open");
        folder.refused(&format!("get v in {path}"), 3, &message);
    }
}

/// A line that tells of content on standard output goes to standard error.
#[test]
fn what_is_told_does_not_mix_with_the_content() {
    let folder = with_volume("streams_told");
    let ran = folder.tfs("get v in /dev/stdout --blocks");
    assert_eq!((ran.status, ran.err.as_str()), (0, "content blocks: 6\n"));
    assert!(ran.out == some(3000));
}

#[test]
fn a_device_and_a_named_pipe_stay() {
    let folder = with_volume("streams_pipe");
    folder.tfs("get v in /dev/null").granted();
    let pipe = folder.path("pipe");
    assert!(Command::new("mkfifo")
        .arg(&pipe)
        .status()
        .unwrap()
        .success());
    let writing = folder.start("get v in pipe --record t");
    assert!(fs::read(&pipe).unwrap() == some(3000));
    Ran::new(writing.wait_with_output().unwrap()).granted();
    assert!(fs::symlink_metadata(&pipe).unwrap().file_type().is_fifo());
    let shown = folder.tfs("trace show t").text();
    assert!(shown.starts_with("read \"in\" 0 65024 -> "), "{shown}");
    let ran = folder.tfs("get v in /dev/full");
    let message = "tfs: /dev/full: No space left on device (os error 28)\n";
    assert_eq!((ran.status, ran.err.as_str()), (3, message));
}

#[test]
fn the_image_is_not_written_to_as_a_stream() {
    let folder = with_volume("streams_image");
    let before = folder.read("v");
    let ran = folder.shell("tfs get v in /dev/stdout >>v");
    let message = "tfs: /dev/stdout: is the image itself\n";
    assert_eq!((ran.status, ran.err.as_str()), (3, message));
    assert!(folder.read("v") == before);
}

/// Runs the tool with standard output, or standard error, into a pipe that nobody reads.
fn unread(folder: &Folder, line: &str, error: bool) -> Ran {
    let (reader, writer) = pipe().unwrap();
    drop(reader);
    let mut tool = folder.tool(&line.split_whitespace().collect::<Vec<_>>());
    match error {
        true => tool.stderr(writer),
        false => tool.stdout(writer),
    };
    Ran::new(tool.output().unwrap())
}

#[test]
fn a_closed_pipe_ends_a_command_quietly() {
    let folder = with_volume("streams_closed");
    folder.tfs("free v --record t").granted();
    folder.write("i", &image(&[file(b"a", b"1")]));
    for line in [
        "--help",
        "list v",
        "check v",
        "get v in -",
        "get v in /dev/stdout",
        "trace show t",
        "trace show t --json",
        "dump v map",
        "rom list i",
        "rom list i --json",
        "rom extract i out --json",
    ] {
        let ran = unread(&folder, line, false);
        assert_eq!((ran.status, ran.err.as_str()), (141, ""), "{line}");
    }
    assert_eq!(folder.read("out/a"), b"1");
}

#[test]
fn what_is_whole_stays_where_nobody_reads() {
    let folder = with_volume("streams_whole");
    let ran = unread(&folder, "put v in --name b --blocks --record t", false);
    assert_eq!((ran.status, ran.err.as_str()), (141, ""));
    assert!(folder.tfs("get v b -").granted() == some(3000));
    assert_eq!(folder.tfs("trace show t").text().lines().count(), 2);
    let ran = unread(&folder, "get v b out --blocks", false);
    assert_eq!((ran.status, ran.err.as_str()), (141, ""));
    assert!(folder.read("out") == some(3000));
}

#[test]
fn a_failure_keeps_its_status_where_nobody_reads_it() {
    let folder = with_volume("streams_failure");
    assert_eq!(unread(&folder, "get v none -", true).status, 1);
    assert_eq!(unread(&folder, "check none", true).status, 3);
    let ran = unread(&folder, "get v in - --blocks", true);
    assert!((ran.status, ran.out) == (141, some(3000)));
}

/// What is closed is no empty file.
#[test]
fn standard_input_that_is_closed_is_told() {
    let folder = with_volume("streams_no_input");
    folder.tfs("free v --record t").granted();
    let before = folder.read("v");
    for line in [
        "put v - -n d",
        "put v /dev/stdin -n d",
        "timing store v - --board 1 --maker 1",
        "trace make - new",
        "replay v /dev/fd/0",
    ] {
        let ran = folder.shell(&format!("tfs {line} <&-"));
        let message = "tfs: standard input is closed\n";
        assert_eq!((ran.status, ran.err.as_str()), (3, message), "{line}");
        assert!(folder.read("v") == before, "{line}");
    }
    assert!(!folder.path("new").exists());
    folder.shell("tfs put v - -n d </dev/null").granted();
    assert_eq!(folder.tfs("get v d -").granted(), b"");
    folder.shell("tfs put v in -n e <&-").granted();
}

#[test]
fn standard_output_that_is_closed_is_told() {
    let folder = with_volume("streams_no_output");
    folder.tfs("free v --record t").granted();
    folder.write("i", &image(&[file(b"a", b"1")]));
    for line in [
        "--help",
        "list v",
        "check v --json",
        "get v in -",
        "get v in /dev/stdout",
        "trace show t",
        "rom list i --json",
        "put v in -n b --blocks",
    ] {
        let ran = folder.shell(&format!("tfs {line} >&-"));
        let message = "tfs: standard output is closed\n";
        assert_eq!((ran.status, ran.err.as_str()), (3, message), "{line}");
    }
    folder.shell("tfs list v >/dev/null").granted();
    // What is whole stays, and who has nothing to print needs no output.
    assert!(folder.tfs("get v b -").granted() == some(3000));
    folder.shell("tfs remove v b >&-").granted();
}
