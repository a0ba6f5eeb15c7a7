//! Whole volumes as folders, and back.

mod bench;

use bench::json::{fails, NOTHING};
use bench::{some, Folder};
use generate::cuts::contents;
use generate::tfs::{any_volume, volume, Shape};
use generate::Random;
use std::fs;

/// A volume "v" with files of these names, each with its number as content.
fn with_names(name: &str, names: &[&str]) -> Folder {
    let folder = Folder::new(name);
    folder.tfs("make v --size 64K").granted();
    for (number, name) in names.iter().enumerate() {
        let put = ["put", "v", "-", "--name", name];
        folder
            .run_with(&put, number.to_string().as_bytes())
            .granted();
    }
    folder
}

fn inside(folder: &Folder, name: &str) -> Vec<String> {
    let entries = fs::read_dir(folder.path(name)).unwrap();
    let name = |entry: fs::DirEntry| entry.file_name().into_string().unwrap();
    let mut names: Vec<String> = entries.map(|entry| name(entry.unwrap())).collect();
    names.sort();
    names
}

#[test]
fn a_volume_is_extracted() {
    let folder = with_names("extract", &["b", "a b", ".hidden", "caf\u{e9}"]);
    assert!(folder.tfs("extract v out").granted().is_empty());
    let names = [".hidden", "a b", "b", "caf\u{e9}"];
    assert_eq!(inside(&folder, "out"), names);
    for (name, content) in names.iter().zip(["2", "1", "0", "3"]) {
        let read = folder.read(&format!("out/{name}"));
        assert_eq!(read, content.as_bytes(), "{name}");
    }
    assert_eq!(folder.names(), ["out", "v"]);
}

#[test]
fn a_folder_is_made_new_or_not_at_all() {
    let folder = with_names("extract_new", &["a"]);
    fs::create_dir(folder.path("out")).unwrap();
    folder.refused("extract v out", 3, "out: exists already");
    let missing = "no/out: there is no folder no";
    folder.refused("extract v no/out", 3, missing);
    folder.write("large", &some(20_000));
    folder.tfs("put v large").granted();
    let ran = folder.shell("trap '' XFSZ; ulimit -f 8; exec tfs extract v new");
    let message = "tfs: new/large: File too large (os error 27)\n";
    assert_eq!((ran.status, ran.err.as_str()), (3, message));
    assert_eq!(folder.names(), ["large", "out", "v"]);
}

#[test]
fn names_that_the_host_cannot_have_are_skipped_and_told() {
    let folder = with_names("extract_skipped", &["../up", "a", "..", ".", "/b", "c\n/"]);
    let ran = folder.tfs("extract v out");
    let skipped: String = ["../up", "..", ".", "/b", "c\\x0a/"]
        .map(|name| format!("skipped {name}: no name for a host file\n"))
        .concat();
    let told = format!("{skipped}tfs: out: extracted but for 5 entries\n");
    assert_eq!((ran.status, ran.err), (7, told));
    assert_eq!(inside(&folder, "out"), ["a"]);
    assert_eq!(folder.names(), ["out", "v"]);
}

#[test]
fn escaped_nothing_is_skipped() {
    let folder = with_names("extract_escaped", &["../up", "a\\", "..", ".", "\u{e9}"]);
    folder.tfs("extract v out --escaped").granted();
    let names = ["..\\x2fup", "\\x2e", "\\x2e\\x2e", "\\xc3\\xa9", "a\\x5c"];
    assert_eq!(inside(&folder, "out"), names);
    folder.tfs("build out w --escaped").granted();
    assert!(contents(&folder.read("w")) == contents(&folder.read("v")));
}

/// Each byte that a name may have is in one of the names.
#[test]
fn names_of_any_byte_come_back() {
    let folder = Folder::new("folders_bytes");
    folder.tfs("make v --size 64K").granted();
    let bytes: Vec<u8> = (1..=255).collect();
    for (number, name) in bytes.chunks(15).enumerate() {
        let name: String = name.iter().map(|byte| format!("\\x{byte:02x}")).collect();
        folder.write("in", &some(number));
        folder.run(&["put", "v", "in", "-x", "-n", &name]).granted();
    }
    folder.tfs("extract v out -x").granted();
    folder.tfs("build out w -x").granted();
    assert_eq!(contents(&folder.read("w")).len(), 17);
    assert!(contents(&folder.read("w")) == contents(&folder.read("v")));
}

#[test]
fn what_is_extracted_and_built_has_the_same_names_and_contents() {
    let folder = Folder::new("folders_round");
    for seed in 0..60 {
        let mut random = Random::new(seed);
        let made = match seed {
            0 => volume(&mut random, Shape::Crowded, 4096),
            1 => volume(&mut random, Shape::Largest, 300),
            _ => any_volume(&mut random, 300),
        };
        folder.write("v", &made.image);
        let lines = [
            format!("extract v out{seed} --escaped"),
            format!("build out{seed} w --escaped --force"),
            format!("extract w again{seed} --escaped"),
            format!("build again{seed} x --escaped --force"),
        ];
        lines
            .iter()
            .for_each(|line| assert!(folder.tfs(line).granted().is_empty()));
        assert_eq!(folder.tfs("check w").text(), "consistent\n");
        assert!(
            contents(&folder.read("w")) == contents(&made.image),
            "{seed}"
        );
        assert!(folder.read("x") == folder.read("w"), "{seed}");
    }
}

#[test]
fn programs_are_told_of_files_that_were_skipped() {
    let folder = with_names("folders_json_skipped", &["a", "b/c"]);
    let ran = folder.tfs("extract v out --json");
    let error = r#"{"status":7,"message":"out: extracted but for 1 entry"}"#;
    let skipped = r#"[{"name":"b/c","why":"no name for a host file"}]"#;
    let object = format!(
        "{{\"tfs\":1,\"command\":\"extract\",\"extracted\":[\"a\"],\"skipped\":{skipped},\"error\":{error}}}\n"
    );
    assert_eq!(
        (ran.status, String::from_utf8(ran.out).unwrap()),
        (7, object)
    );
    fails(&folder, "extract v out", 3, NOTHING, "out: exists already");
    fails(
        &folder,
        "build no w",
        3,
        NOTHING,
        "no: No such file or directory (os error 2)",
    );
}
