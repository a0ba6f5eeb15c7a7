//! Several files at once: all or none.

mod bench;

use bench::json::{fails, prints};
use bench::{some, Folder};
use std::fs;

/// A volume "v" with a file "old", host files f0 to f4 of different sizes, and a folder "to".
fn with_files(name: &str) -> Folder {
    let folder = Folder::new(name);
    folder.tfs("make v --size 64K").granted();
    folder.write("old", &some(700));
    folder.tfs("put v old").granted();
    for number in 0..5 {
        folder.write(&format!("f{number}"), &some(300 * number));
    }
    fs::create_dir(folder.path("to")).unwrap();
    folder
}

fn names(folder: &Folder) -> Vec<String> {
    let list = folder.tfs("list v").text();
    let name = |line: &str| line.rsplit(' ').next().unwrap().to_string();
    list.lines().map(name).collect()
}

#[test]
fn all_are_put_under_their_own_names() {
    let folder = with_files("several_put");
    let ran = folder.tfs("put v f0 ./f1 to/../f2 f3 f4 --blocks");
    assert_eq!(ran.text(), "content blocks: 8\n");
    assert_eq!(names(&folder), ["old", "f0", "f1", "f2", "f3", "f4"]);
    for number in 0..5 {
        let content = folder.tfs(&format!("get v f{number} -")).granted();
        assert!(content == some(300 * number), "f{number}");
    }
    folder.write("f1", b"new");
    folder.tfs("put v f1 old --replace").granted();
    assert_eq!(folder.tfs("get v f1 -").granted(), b"new");
}

#[test]
fn none_is_put_where_one_is_refused() {
    let folder = with_files("several_put_refused");
    folder.write("large", &some(65_025));
    folder.write("a_name_of_16_byt", b"");
    folder.write("most", &some(60_000));
    for (line, file, message) in [
        (
            "put v f0 old f1",
            "old",
            "refused 10: old stands already, in slot 0",
        ),
        (
            "put v f0 large",
            "large",
            "refused 9: the size is over 65024 bytes, the most that a file may have",
        ),
        (
            "put v f0 a_name_of_16_byt",
            "a_name_of_16_byt",
            "refused 8: the name is 16 bytes long, at most 15 are allowed",
        ),
        (
            "put v most f4",
            "f4",
            "refused 12: too few free blocks: 4 needed with the inode, 3 free",
        ),
        (
            "put v f0 old most f4 --replace",
            "f4",
            "refused 12: too few free blocks: 4 needed with the inode, 2 free",
        ),
    ] {
        let message = format!("v: {file}: {message}");
        folder.refused(line, 1, &message);
        folder.refused(&format!("{line} --in-place"), 1, &message);
        folder.refused(&format!("{line} --record t"), 1, &message);
    }
    let missing = "no: No such file or directory (os error 2)";
    folder.refused("put v f0 no", 3, missing);
}

#[test]
fn a_refusal_before_any_change_is_recorded() {
    let folder = with_files("several_record_refused");
    for line in ["put v old f1", "remove v f1 old", "get v f1 old --to to"] {
        assert_eq!(folder.tfs(&format!("{line} --record t")).status, 1);
    }
    let lines = "create \"old\" 700 -> refused 10\nremove \"f1\" -> refused 13\n\
                 read \"f1\" 0 65024 -> refused 13\n";
    assert_eq!(folder.tfs("trace show t").text(), lines);
}

#[test]
fn all_are_recorded_and_replayed() {
    let folder = with_files("several_record");
    folder.write("start", &folder.read("v"));
    for line in [
        "put v f0 f1 f2",
        "put v f1 f3 --replace --in-place",
        "get v f1 old --to to",
        "remove v old f0 f3",
    ] {
        folder.tfs(&format!("{line} --record t")).granted();
    }
    let replayed = folder.tfs("replay start t --out end").text();
    assert_eq!(replayed, "records replayed: 17\n");
    assert!(folder.read("end") == folder.read("v"));
}

#[test]
fn all_are_got_into_a_folder() {
    let folder = with_files("several_get");
    folder.tfs("put v f3 f4").granted();
    let ran = folder.tfs("get v f3 old f4 --to to --blocks");
    assert_eq!(ran.text(), "content blocks: 7\n");
    for (name, size) in [("f3", 900), ("old", 700), ("f4", 1200)] {
        assert!(folder.read(&format!("to/{name}")) == some(size), "{name}");
    }
    folder.write("to/f3", b"");
    folder.tfs("get v f3 --to to -f").granted();
    assert!(folder.read("to/f3") == some(900));
    fs::remove_file(folder.path("f3")).unwrap();
    folder.tfs("get v f3 --to .").granted();
    assert!(folder.read("f3") == some(900));
}

#[test]
fn none_is_got_where_one_cannot_be() {
    let folder = with_files("several_get_none");
    folder.tfs("put v f3 f4").granted();
    folder.tfs("put v f3 --name v").granted();
    folder.tfs("put v f3 --name a/b").granted();
    folder.write("to/f4", b"kept");
    fs::create_dir(folder.path("to/f3")).unwrap();
    let exists = "exists already (--force replaces it)";
    for (line, status, message) in [
        ("get v old f4 --to to", 3, format!("to/f4: {exists}")),
        (
            "get v old f4 f3 --to to --force",
            3,
            "to/f3: is a folder, which cannot be replaced".into(),
        ),
        ("get v old --to f3", 3, "f3: is not a folder".into()),
        (
            "get v f0 --to to",
            1,
            "v: refused 13: no file has the name f0".into(),
        ),
        (
            "get v old f0 --to to",
            1,
            "v: f0: refused 13: no file has the name f0".into(),
        ),
        (
            "get v old v --to ./ -f",
            3,
            "./v: is the image itself".into(),
        ),
        (
            "get v old a/b --to to",
            2,
            "get: a/b: get it without --to, with a HOSTFILE".into(),
        ),
    ] {
        folder.refused(line, status, &message);
        assert_eq!(folder.read("to/f4"), b"kept", "{line}");
        assert_eq!(
            fs::read_dir(folder.path("to")).unwrap().count(),
            2,
            "{line}"
        );
    }
    let missing = "no/f4: there is no folder no";
    folder.refused("get v old f4 --to no", 3, missing);
}

/// The second host file has no room, or is held by another command.
#[test]
fn none_is_got_where_the_host_fails_at_a_later_one() {
    let folder = with_files("several_get_half");
    folder.write("z", &some(20_000));
    folder.tfs("put v z").granted();
    folder.write("to/z", b"kept");
    let ran = folder.shell("trap '' XFSZ; ulimit -f 8; exec tfs get v old z --to to --force");
    let message = "tfs: to/z: File too large (os error 27)\n";
    assert_eq!((ran.status, ran.err.as_str()), (3, message));
    let held = fs::File::open(folder.path("to/z")).unwrap();
    held.lock().unwrap();
    let message = "to/z: busy: another command holds it";
    folder.refused("get v z old --to to --force --wait 0", 6, message);
    assert_eq!(folder.read("to/z"), b"kept");
    assert_eq!(fs::read_dir(folder.path("to")).unwrap().count(), 1);
}

#[test]
fn all_are_removed_or_none() {
    let folder = with_files("several_remove");
    folder.tfs("put v f0 f1 f2").granted();
    let message = "v: f3: refused 13: no file has the name f3";
    folder.refused("remove v f0 f3 f1", 1, message);
    folder.refused("remove v f0 f3 f1 --in-place", 1, message);
    folder.refused("remove v f0 f3 f1 --record t", 1, message);
    folder.tfs("remove v f2 old f0").granted();
    assert_eq!(names(&folder), ["f1"]);
}

#[test]
fn a_program_is_told_of_each_file() {
    let folder = with_files("several_json");
    let file = |name: &str, size, blocks| {
        format!("{{\"name\":\"{name}\",\"size\":{size},\"blocks\":{blocks}}}")
    };
    let both = format!("\"files\":[{},{}]", file("f2", 600, 2), file("f0", 0, 0));
    prints(&folder, "put v f2 f0", &both);
    prints(&folder, "get v f2 f0 --to to", &both);
    let one = format!("\"files\":[{}]", file("old", 700, 2));
    prints(&folder, "get v old --to to", &one);
    let message = "v: f2: refused 10: f2 stands already, in slot 1";
    let members = [("refusal", "10"), ("name", "\"f2\"")];
    fails(&folder, "put v f1 f2", 1, &members, message);
}

#[test]
fn what_is_for_one_file_is_refused_for_several() {
    let folder = with_files("several_usage");
    for (line, message) in [
        ("put v f0 f1 --name g", "put: --name is for one HOSTFILE"),
        ("put v f0 f1 --at 0", "put: --at is for one HOSTFILE"),
        (
            "put v f0 f1 --length 0",
            "put: --length is for one HOSTFILE",
        ),
        ("put v f0 to/../f0", "put: f0 is given twice"),
        ("put v f0 -", "put: -: put it alone, with a --name"),
        ("get v old f0 f1", "get: several names need --to FOLDER"),
        ("get v old old --to to", "get: old is given twice"),
        (
            "get v old --to to --at 1",
            "get: --at is for one NAME without --to",
        ),
        ("remove v old f0 old", "remove: old is given twice"),
    ] {
        folder.refused(line, 2, message);
    }
    let many = vec!["f0"; 26].join(" ");
    let message = "put: 26 files are given, and a volume has at most 25";
    folder.refused(&format!("put v {many}"), 2, message);
}
