//! Images changed in place: the same bytes, in the same file.

mod bench;

use bench::{some, Folder};
use std::fs;
use std::os::unix::fs::{symlink, MetadataExt};
use std::process::Command;

/// A volume "v" and a copy "w" of it, with a file "old" of 700 bytes; host files to be put.
fn with_volumes(name: &str) -> Folder {
    let folder = Folder::new(name);
    folder.tfs("make v --size 128K").granted();
    folder.write("old", &some(700));
    folder.tfs("put v old").granted();
    folder.write("w", &folder.read("v"));
    for size in [0, 1, 512, 513, 65_024] {
        folder.write(&format!("f{size}"), &some(size));
    }
    folder
}

fn inode(folder: &Folder, name: &str) -> u64 {
    fs::metadata(folder.path(name)).unwrap().ino()
}

#[test]
fn the_bytes_are_those_of_a_renamed_file() {
    let folder = with_volumes("in_place_bytes");
    let before = inode(&folder, "v");
    fs::hard_link(folder.path("v"), folder.path("link")).unwrap();
    for line in [
        "put IMAGE f0",
        "put IMAGE f1",
        "put IMAGE f512",
        "put IMAGE f513 --name old --replace",
        "remove IMAGE f1",
        "put IMAGE f65024",
        "put IMAGE f1 --name f65024 --replace",
        "put IMAGE f1 --replace",
        "remove IMAGE f0",
        "create IMAGE new 1300",
        "put IMAGE f513 --name new --at 500",
        "put IMAGE f512 --name new --at 512 --length 512",
        "put IMAGE f0 --name new --at 1300",
        "put IMAGE f0 f1 f513 f512 --replace",
        "remove IMAGE f0 new f1",
    ] {
        let put = format!("{} --in-place", line.replace("IMAGE", "v"));
        folder.tfs(&put).granted();
        folder.tfs(&line.replace("IMAGE", "w")).granted();
        assert!(folder.read("v") == folder.read("w"), "{line}");
        assert!(folder.read("link") == folder.read("w"), "{line}");
    }
    assert_eq!(inode(&folder, "v"), before);
    assert_eq!(folder.tfs("check v").text(), "consistent\n");
}

#[test]
fn a_link_is_followed_and_nothing_else_is_made() {
    let folder = with_volumes("in_place_link");
    symlink("v", folder.path("to_v")).unwrap();
    let names = folder.names();
    folder.tfs("put to_v f513 --in-place").granted();
    assert_eq!(folder.names(), names);
    assert_eq!(folder.tfs("get v f513 -").granted(), some(513));
    assert!(fs::symlink_metadata(folder.path("to_v"))
        .unwrap()
        .is_symlink());
}

#[test]
fn bytes_behind_the_volume_stay() {
    let folder = with_volumes("in_place_behind");
    let mut image = folder.read("v");
    image.extend([0x77; 300]);
    folder.write("v", &image);
    folder.tfs("put v f513 --in-place").granted();
    let after = folder.read("v");
    assert_eq!(
        (after.len(), &after[131_072..]),
        (131_372, &[0x77; 300][..])
    );
}

/// What is refused stores nothing, also where a file would have been removed before.
#[test]
fn what_is_refused_stores_nothing() {
    let folder = with_volumes("in_place_refused");
    folder.write("large", &some(65_025));
    folder.tfs("put v f65024 --in-place").granted();
    for (line, message) in [
        (
            "put v f1 --name old",
            "v: refused 10: old stands already, in slot 0",
        ),
        (
            "put v large",
            "v: refused 9: the size is over 65024 bytes, the most that a file may have",
        ),
        (
            "put v large --name old --replace",
            "v: refused 9: the size is over 65024 bytes, the most that a file may have",
        ),
        (
            "put v f65024 --name old --replace",
            "v: refused 12: too few free blocks: 128 needed with the inode, 125 free",
        ),
        ("remove v none", "v: refused 13: no file has the name none"),
        (
            "remove v old none",
            "v: none: refused 13: no file has the name none",
        ),
        (
            "put v f1 old",
            "v: old: refused 10: old stands already, in slot 0",
        ),
        (
            "create v old 1",
            "v: refused 10: old stands already, in slot 0",
        ),
        (
            "put v f1 --name old --at 701",
            "v: refused 15: offset 701 is behind the end of old, which has 700 bytes",
        ),
        (
            "put v f1 --name old --at 700",
            "v: old has room for only 0 bytes from offset 700 on",
        ),
    ] {
        folder.refused(&format!("{line} --in-place"), 1, message);
    }
    assert_eq!(folder.tfs("get v old -").granted(), some(700));
}

#[test]
fn a_trace_is_the_same() {
    let folder = with_volumes("in_place_trace");
    for line in [
        "put IMAGE f513 --record TRACE",
        "put IMAGE f1 --name f513 --replace --blocks --record TRACE",
        "remove IMAGE old --record TRACE",
        "remove IMAGE old --record TRACE",
        "put IMAGE f0 f1 --record TRACE",
        "create IMAGE new 600 --record TRACE",
        "put IMAGE f1 --name new --at 599 --record TRACE",
    ] {
        let fill = |image: &str, trace: &str| line.replace("IMAGE", image).replace("TRACE", trace);
        let ours = folder.tfs(&format!("{} --in-place", fill("v", "t")));
        let theirs = folder.tfs(&fill("w", "u"));
        assert_eq!((ours.status, ours.out), (theirs.status, theirs.out));
    }
    assert!(folder.read("t") == folder.read("u"));
    assert!(folder.read("v") == folder.read("w"));
}

/// Writes behind the third block fail here: a remove has its two stores, a create none.
#[test]
fn a_store_that_fails_is_told() {
    let folder = with_volumes("in_place_fails");
    let limited = |line: &str| folder.shell(&format!("trap '' XFSZ; ulimit -f 3; tfs {line}"));
    let ran = limited("put v f513 --in-place");
    let failed = |before: usize| {
        let stored = format!("blocks stored before: {before}, and perhaps this one");
        let check = "(tfs check tells whether to mend)";
        format!("tfs: v: File too large (os error 27); {stored} {check}\n")
    };
    assert_eq!((ran.status, ran.err), (3, failed(0)));
    assert!(folder.read("v") == folder.read("w"));
    let ran = limited("put v f513 --name old --replace --in-place");
    assert_eq!((ran.status, ran.err), (3, failed(2)));
    folder.tfs("remove w old").granted();
    assert!(folder.read("v") == folder.read("w"));
    assert_eq!(folder.tfs("check v").text(), "consistent\n");
}

/// A block device that has no driver; none where this user may not make one.
fn with_device(folder: &Folder) -> bool {
    let mut made = Command::new("mknod");
    made.arg(folder.path("device")).args(["b", "240", "77"]);
    made.output().is_ok_and(|output| output.status.success())
}

#[test]
fn a_block_device_is_not_replaced_by_a_file() {
    let folder = with_volumes("in_place_device");
    if !with_device(&folder) {
        return;
    }
    folder.tfs("free v --record t").granted();
    let message = "device: is a block device; write a plain file and copy it there";
    for line in [
        "make device --size 64K",
        "make device --size 64K --force",
        "replay v t --out device",
        "get v old device",
        "trace make /dev/null device",
    ] {
        folder.refused(line, 3, message);
    }
    let absent = "device: No such device or address (os error 6)";
    for line in [
        "check device",
        "put device f1",
        "remove device old",
        "mend device",
    ] {
        folder.refused(line, 3, absent);
    }
}

#[test]
fn only_commands_that_change_a_volume_know_the_option() {
    let folder = with_volumes("in_place_option");
    for command in [
        "create",
        "put",
        "remove",
        "mend",
        "timing store",
        "timing open-lid",
    ] {
        let help = folder.tfs(&format!("{command} --help")).text();
        assert!(help.contains("[--in-place]"), "{command}");
        assert!(
            help.contains("A block device is always changed in place."),
            "{command}"
        );
    }
    for line in [
        "get v old",
        "check v",
        "list v",
        "free v",
        "make x --size 64K",
        "timing show v",
        "timing boot v",
        "extract v x",
        "build x v",
    ] {
        let ran = folder.tfs(&format!("{line} --in-place"));
        assert_eq!(ran.status, 2, "{line}");
        assert!(ran.err.contains("unknown option --in-place"), "{}", ran.err);
    }
    let ran = folder.tfs("mend v --in-place=1");
    assert!(ran.err.contains("--in-place has no value"), "{}", ran.err);
}
