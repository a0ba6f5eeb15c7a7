//! Host files: what cannot be read or written, and what is kept.

mod bench;

use bench::{some, Folder};
use std::fs;
use std::os::unix::fs::{symlink, PermissionsExt};

const MISSING: &str = "No such file or directory (os error 2)";

fn with_volume(name: &str) -> Folder {
    let folder = Folder::new(name);
    folder.tfs("make v --size 64K").granted();
    folder.write("in", &some(3000));
    folder
}

#[test]
fn missing_files_are_named() {
    let folder = with_volume("missing");
    for line in [
        "check no",
        "list no",
        "free no",
        "put no in",
        "get no in",
        "remove no in",
        "create no f 1",
        "put no in --at 0",
        "get no in --to .",
        "extract no out",
        "build no out",
        "mend no",
        "put no in --in-place",
        "mend no --in-place",
        "dump no map",
    ] {
        folder.refused(line, 3, &format!("no: {MISSING}"));
    }
    for line in [
        "rom check no",
        "rom list no",
        "rom extract no out",
        "rom cat no f",
    ] {
        folder.refused(line, 3, &format!("no: {MISSING}"));
    }
    folder.refused("put v no", 3, &format!("no: {MISSING}"));
    folder.refused("put v . --name x", 3, ".: Is a directory (os error 21)");
}

#[test]
fn a_missing_folder_is_not_made() {
    let folder = with_volume("missing_folder");
    folder.tfs("put v in").granted();
    folder.refused("make no/v --size 64K", 3, "no/v: there is no folder no");
    folder.refused("get v in no/out", 3, "no/out: there is no folder no");
    folder.refused(
        "get v in in/out",
        3,
        "in/out: Not a directory (os error 20)",
    );
}

#[test]
fn a_folder_may_be_unwritable() {
    let folder = with_volume("unwritable");
    folder.tfs("put v in").granted();
    let rights = |name, mode| {
        fs::set_permissions(folder.path(name), fs::Permissions::from_mode(mode)).unwrap();
    };
    fs::create_dir(folder.path("shut")).unwrap();
    fs::copy(folder.path("v"), folder.path("shut/v")).unwrap();
    rights("shut", 0o555);
    rights("v", 0o444);
    // Root may write everywhere.
    if fs::write(folder.path("shut/probe"), b"").is_err() {
        let denied = "Permission denied (os error 13)";
        folder.refused("get v in shut/out", 3, &format!("shut/out: {denied}"));
        folder.refused("make shut/w --size 64K", 3, &format!("shut/w: {denied}"));
        folder.refused("remove shut/v in", 3, &format!("shut/v: {denied}"));
        folder.refused("remove v in", 3, &format!("v: {denied}"));
    }
    rights("shut", 0o755);
}

#[test]
fn a_write_that_fails_half_way_leaves_nothing() {
    let folder = with_volume("half_way");
    folder.tfs("put v in").granted();
    let (before, names) = (folder.read("v"), folder.names());
    for line in [
        "put v in --name b",
        "remove v in",
        "make w --size 64K",
        "make v --size 64K --force",
    ] {
        let ran = folder.shell(&format!("trap '' XFSZ; ulimit -f 8; exec tfs {line}"));
        assert_eq!(ran.status, 3, "{line}");
        assert!(
            ran.err.ends_with(": File too large (os error 27)\n"),
            "{}",
            ran.err
        );
        assert!(folder.read("v") == before, "{line}");
        assert_eq!(folder.names(), names, "{line}");
    }
}

#[test]
fn standard_output_may_be_full() {
    let folder = with_volume("output_full");
    folder.tfs("put v in").granted();
    for line in ["get v in -", "list v", "check v", "--help"] {
        let ran = folder.shell(&format!("tfs {line} >/dev/full"));
        let message = "tfs: standard output: No space left on device (os error 28)\n";
        assert_eq!((ran.status, ran.err.as_str()), (3, message), "{line}");
    }
}

#[test]
fn make_replaces_nothing_unasked() {
    let folder = with_volume("make_twice");
    folder.refused(
        "make v --size 64K",
        3,
        "v: exists already (--force replaces it)",
    );
    symlink("nowhere", folder.path("link")).unwrap();
    folder.refused(
        "make link --size 64K",
        3,
        "link: is a symbolic link that leads to nothing",
    );
}

#[test]
fn only_plain_files_are_replaced() {
    let folder = with_volume("plain_files");
    folder.tfs("put v in").granted();
    fs::create_dir(folder.path("dir")).unwrap();
    symlink("nowhere", folder.path("link")).unwrap();
    for line in ["get v in PLACE", "make PLACE --size 64K"] {
        for (place, what) in [
            ("dir", "a folder, which cannot be replaced"),
            ("link", "a symbolic link that leads to nothing"),
        ] {
            let (line, message) = (line.replace("PLACE", place), format!("{place}: is {what}"));
            folder.refused(&line, 3, &message);
            folder.refused(&format!("{line} --force"), 3, &message);
        }
    }
    folder.refused("get v in v", 3, "v: is the image itself");
    folder.refused("get v in ./dir/../v", 3, "./dir/../v: is the image itself");
}

#[test]
fn permissions_and_links_are_kept() {
    let folder = with_volume("permissions");
    symlink("v", folder.path("link")).unwrap();
    fs::set_permissions(folder.path("v"), fs::Permissions::from_mode(0o640)).unwrap();
    folder.tfs("put link in").granted();
    assert!(fs::symlink_metadata(folder.path("link"))
        .unwrap()
        .is_symlink());
    let rights = fs::metadata(folder.path("v")).unwrap().permissions();
    assert_eq!(rights.mode() & 0o7777, 0o640);
    assert_eq!(folder.tfs("list v").text(), " 0    3  3000 in\n");
    assert_eq!(folder.names(), ["in", "link", "v"]);
}

#[test]
fn a_name_with_a_slash_needs_a_host_file() {
    let folder = with_volume("slash");
    for name in ["../in", "a/b", "..", "/x"] {
        folder.tfs(&format!("put v in --name {name}")).granted();
        folder.refused(
            &format!("get v {name}"),
            2,
            &format!("get: {name}: give a HOSTFILE"),
        );
        folder.tfs(&format!("get v {name} out --force")).granted();
        assert!(folder.read("out") == some(3000));
    }
}
