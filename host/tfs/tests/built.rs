//! Folders made volumes.

mod bench;

use bench::json::{fails, prints};
use bench::{some, Folder};
use std::fs;
use std::os::unix::fs::symlink;
use std::process::Command;

/// A folder "in" with files of these names and sizes.
fn with_folder(name: &str, files: &[(&str, usize)]) -> Folder {
    let folder = Folder::new(name);
    fs::create_dir(folder.path("in")).unwrap();
    for (name, size) in files {
        folder.write(&format!("in/{name}"), &some(*size));
    }
    folder
}

fn make_pipe(folder: &Folder, name: &str) {
    let made = Command::new("mkfifo").arg(folder.path(name)).status();
    assert!(made.unwrap().success());
}

#[test]
fn files_are_built_in_the_order_of_their_names() {
    let files = [
        ("b", 1),
        ("B", 513),
        ("a", 0),
        ("\u{e9}", 2),
        ("a b", 65_024),
    ];
    let folder = with_folder("build", &files);
    assert!(folder
        .tfs("build in v --size 128K --label PUMP")
        .granted()
        .is_empty());
    let lines = " 0    3   513 B\n 1    6     0 a\n 2    7 65024 a b\n 3  135     1 b\n \
                 4  137     2 \\xc3\\xa9\n";
    assert_eq!(folder.tfs("list v").text(), lines);
    assert!(folder.tfs("get v B -").granted() == some(513));
    let image = folder.read("v");
    assert_eq!((image.len(), &image[4..9]), (131_072, &b"PUMP\0"[..]));
}

#[test]
fn without_a_size_a_volume_is_as_small_as_can_be() {
    let folder = with_folder("build_small", &[]);
    for (name, size, bytes, blocks) in [
        ("a", 0, 1536 + 512, "1 needed with the inode, 0 free"),
        ("b", 1, 1536 + 1536, "2 needed with the inode, 1 free"),
        ("c", 513, 1536 + 3072, "3 needed with the inode, 2 free"),
    ] {
        folder.write(&format!("in/{name}"), &some(size));
        folder.tfs("build in v --force").granted();
        assert_eq!(folder.read("v").len(), bytes, "{name}");
        assert_eq!(folder.tfs("free v").text(), "0\n", "{name}");
        folder.refused(
            &format!("build in w --size {}", bytes - 1),
            1,
            &format!("w: {name}: refused 12: too few free blocks: {blocks}"),
        );
    }
    fs::remove_dir_all(folder.path("in")).unwrap();
    fs::create_dir(folder.path("in")).unwrap();
    folder.tfs("build in v --force").granted();
    assert_eq!(folder.read("v").len(), 1536);
}

#[test]
fn only_plain_files_are_built() {
    let folder = with_folder("build_plain", &[("a", 5)]);
    let refused = || folder.refused("build in v", 3, "in/z: not a plain file");
    fs::create_dir(folder.path("in/z")).unwrap();
    refused();
    fs::remove_dir(folder.path("in/z")).unwrap();
    symlink("a", folder.path("in/z")).unwrap();
    refused();
    fs::remove_file(folder.path("in/z")).unwrap();
    make_pipe(&folder, "in/z");
    refused();
    folder.refused("build in/a v", 3, "in/a: Not a directory (os error 20)");
}

#[test]
fn what_a_volume_cannot_have_is_refused_with_its_cause() {
    let long = "a_name_of_16_byt";
    for (file, size, message) in [
        (
            long,
            0,
            "refused 8: the name is 16 bytes long, at most 15 are allowed",
        ),
        (
            "a",
            65_025,
            "refused 9: the size is over 65024 bytes, the most that a file may have",
        ),
    ] {
        let folder = with_folder("build_refused", &[("0", 5), (file, size), ("z", 5)]);
        let message = format!("v: {file}: {message}");
        folder.refused("build in v", 1, &message);
        folder.write("v", b"kept");
        folder.refused("build in v --force", 1, &message);
    }
}

#[test]
fn more_files_than_slots_are_refused() {
    let names: Vec<String> = (0..25).map(|number| format!("f{number}")).collect();
    let files: Vec<(&str, usize)> = names.iter().map(|name| (name.as_str(), 600)).collect();
    let folder = with_folder("build_many", &files);
    folder.tfs("build in v").granted();
    assert_eq!(folder.tfs("list v").text().lines().count(), 25);
    folder.write("in/one_more", b"");
    let message = "in: refused 11: the folder has more than 25 entries";
    folder.refused("build in w", 1, message);
}

#[test]
fn escaped_names_must_be_names() {
    for (name, status, message) in [
        (
            "\\x00",
            1,
            "v: \\x00: refused 8: the name has a zero byte in it",
        ),
        ("b\\x1", 3, "in/b\\x1: a backslash without xNN behind it"),
        (
            "\\x61",
            1,
            "in/a: refused 10: another file of the folder has the same name",
        ),
    ] {
        let folder = with_folder("build_escaped", &[(name, 1), ("a", 1)]);
        folder.refused("build in v --escaped", status, message);
        folder.tfs("build in v").granted();
        assert_eq!(folder.tfs("list v").text().lines().count(), 2, "{name}");
    }
}

#[test]
fn an_image_is_replaced_only_by_force_and_not_by_itself() {
    let folder = with_folder("build_force", &[("a", 5)]);
    folder.write("v", b"kept");
    let exists = "v: exists already (--force replaces it)";
    folder.refused("build in v", 3, exists);
    folder.tfs("build in v --force").granted();
    folder.tfs("build in in/v").granted();
    folder.refused("build in in/v --force", 3, "in/v: is the image itself");
    make_pipe(&folder, "pipe");
    let pipe = "pipe: is a pipe, which cannot be replaced";
    folder.refused("build in pipe --force", 3, pipe);
    folder.refused(
        "build in w --size 1k",
        1,
        "w: refused 1: the image has 1024 bytes, under 1536",
    );
}

#[test]
fn programs_are_told_of_files() {
    let folder = with_folder("folders_json", &[("a", 5), ("b\\", 600)]);
    let files = r#"[{"name":"a","size":5},{"name":"b\\x5c","size":600}]"#;
    let members = format!("\"size\":4096,\"files\":{files}");
    prints(&folder, "build in v", &members);
    let members = r#""extracted":["a","b\\x5c"],"skipped":[]"#;
    prints(&folder, "extract v out", members);
    let few = "w: a: refused 12: too few free blocks: 2 needed with the inode, 1 free";
    let members = [("refusal", "12"), ("name", "\"a\"")];
    fails(&folder, "build in w --size 2k", 1, &members, few);
}
