//! The tool itself, whose power is taken after every number of stores.

mod bench;

use bench::{some, Folder, Ran};
use generate::cuts::{Change, Series};
use generate::Random;
use reference::tfs;
use std::fs;
use std::os::unix::fs::MetadataExt;
use std::process::Command;

/// The exit status of a tool whose power was taken.
const POWER_TAKEN: i32 = 99;

/// How an image is changed store by store: by the option, or because it is a block device.
const IN_PLACE: [(&str, &str); 2] = [(" --in-place", ""), ("", "TFS_DEVICE=1")];

/// A folder with a volume of 40 blocks, noise in its free blocks; host files to be put; and what is
/// loaded into the tool to take its power.
fn with_power(name: &str) -> Folder {
    let folder = Folder::new(name);
    let mut volume = vec![0x5A; 40 * 512 + 100];
    tfs::format(&mut volume, b"PUMP").unwrap();
    for (file, size) in [(b"A", 700), (b"B", 1_100)] {
        tfs::create(&mut volume, file, size).unwrap();
        tfs::write(&mut volume, file, 0, &some(1_200)).unwrap();
    }
    folder.write("old", &volume);
    folder.write("new", &some(1_300));
    folder.write("empty", b"");
    let mut compiler = Command::new("gcc");
    compiler.args("-std=gnu99 -Wall -Wextra -Werror -shared -fPIC -o".split(' '));
    compiler.arg(folder.path("power.so"));
    compiler.arg(concat!(env!("CARGO_MANIFEST_DIR"), "/tests/bench/power.c"));
    assert!(compiler.status().unwrap().success());
    folder
}

/// Runs the tool on a copy "v" of the image "old" in these circumstances; what ran, and the numbers
/// of the blocks that were stored.
fn run(folder: &Folder, circumstances: &str, line: &str) -> (Ran, Vec<u32>) {
    folder.write("v", &folder.read("old"));
    folder.write("stores", b"");
    let inode = || fs::metadata(folder.path("v")).unwrap().ino();
    let before = (inode(), folder.names());
    let loaded = format!("LD_PRELOAD=./power.so TFS_STORES=stores {circumstances}");
    let ran = folder.shell(&format!("{loaded} tfs {line}"));
    assert!((inode(), folder.names()) == before, "{line}");
    let stores = String::from_utf8(folder.read("stores")).unwrap();
    let stores = stores.lines().map(|line| line.parse().unwrap());
    (ran, stores.collect())
}

/// The commands and the requests that each of them makes.
fn commands() -> Vec<(&'static str, Vec<Change>)> {
    let put = |name: &[u8], bytes: Vec<u8>| {
        let create = Change::Create(name.to_vec(), bytes.len() as u32);
        vec![create, Change::Write(name.to_vec(), 0, bytes)]
    };
    let mut replace = vec![Change::Remove(b"A".to_vec())];
    replace.extend(put(b"A", some(1_300)));
    vec![
        ("put v new", put(b"new", some(1_300))),
        ("put v empty", put(b"empty", Vec::new())),
        ("put v new --name A --replace", replace),
        ("put v new --replace", put(b"new", some(1_300))),
        ("remove v B", vec![Change::Remove(b"B".to_vec())]),
    ]
}

/// The requests one after another, each as the stores that the reference gives.
fn series(changes: Vec<Change>, old: &[u8]) -> Vec<Series> {
    let mut random = Random::new(1);
    let mut image = old.to_vec();
    let mut next = |change| {
        let series = Series::of_reference(&mut random, change, &image);
        image.clone_from(&series.new);
        series
    };
    changes.into_iter().map(&mut next).collect()
}

/// What the tool says of an image after a cut, and then a mend; it is to be the one that stands
/// after so many stores of a request.
fn assert_mends(folder: &Folder, series: &Series, made: usize) {
    let cut = folder.read("v");
    let check = tfs::check(&cut).err();
    assert_eq!(series.holds(made, &cut, check), Ok(()));
    let said = folder.tfs("check v");
    let hint = said.err.ends_with(" (tfs mend helps)\n");
    assert_eq!((said.status == 0, hint), (check.is_none(), check.is_some()));
    folder.tfs("mend v --in-place").granted();
    let mended = folder.read("v");
    let check = tfs::check(&mended).err();
    assert_eq!(series.mends(&cut, &mended, check), Ok(()));
}

/// Takes the power in a command after each of its stores: the file has what was stored before, and
/// no other byte has changed.
fn cut_everywhere(folder: &Folder, circumstances: &str, line: &str, all: &[Series]) {
    let cut_after = |count| run(folder, &format!("TFS_CUT={count} {circumstances}"), line);
    let cuts = all
        .iter()
        .flat_map(|series| (0..series.stores.len()).map(move |made| (series, made)));
    let mut numbers = Vec::new();
    for (series, made) in cuts {
        let (ran, stored) = cut_after(numbers.len());
        assert_eq!((ran.status, ran.err.as_str()), (POWER_TAKEN, ""), "{line}");
        assert_eq!(stored, numbers, "{line}");
        assert!(folder.read("v") == series.cut(made), "{line} {numbers:?}");
        assert_mends(folder, series, made);
        numbers.push(series.stores[made].0);
    }
    let (ran, stored) = cut_after(numbers.len());
    ran.granted();
    assert_eq!(stored, numbers, "{line}");
    let last = all.last().expect("a request");
    assert!(folder.read("v") == last.new, "{line}");
}

/// The same on a regular file that is changed in place, and on a device.
fn cut_in_every_way(folder: &Folder, line: &str, all: &[Series]) {
    for (option, circumstances) in IN_PLACE {
        cut_everywhere(folder, circumstances, &format!("{line}{option}"), all);
    }
}

#[test]
fn power_is_taken_after_every_store() {
    let folder = with_power("power");
    let old = folder.read("old");
    for (line, changes) in commands() {
        let all = series(changes, &old);
        cut_in_every_way(&folder, line, &all);
    }
}

/// The content of a timing file with equal values, and the line that stores it.
fn timing(board: u8, maker: u8, value: u8) -> (Vec<u8>, String) {
    let mut bytes = vec![0, 0, 0, board, 0, 0, 0, maker];
    bytes.extend([0, value].repeat(28));
    let line = format!("timing store v --board {board} --maker {maker} values{value}");
    (bytes, line)
}

/// The first of the values that a boot gets, or its refusal; the other values must be the same.
fn boot(folder: &Folder, board: u8, maker: u8) -> Result<u32, String> {
    let ran = folder.tfs(&format!("timing boot v --board {board} --maker {maker}"));
    if ran.status == 1 {
        let words = ran.err.split(' ');
        return Err(words.skip(2).take(2).collect::<Vec<_>>().join(" "));
    }
    let text = ran.text();
    let values: Vec<u32> = text
        .split_whitespace()
        .map(|word| word.parse().unwrap())
        .collect();
    assert_eq!(values, [values[0]; 28]);
    Ok(values[0])
}

/// Takes the power after each number of stores, mends, and boots with the old numbers and the new.
fn boots_after_cuts(folder: &Folder, line: &str, expected: &[[Result<u32, &str>; 2]]) {
    for (option, circumstances) in IN_PLACE {
        let line = format!("{line}{option}");
        for (count, expected) in expected.iter().enumerate() {
            run(folder, &format!("TFS_CUT={count} {circumstances}"), &line);
            folder.tfs("mend v --in-place").granted();
            let booted = [boot(folder, 7, 1), boot(folder, 8, 2)];
            let expected = expected.map(|boot| boot.map_err(|number| format!("refused {number}:")));
            assert_eq!(booted, expected, "{line}, {count}");
        }
    }
}

/// Writes host files with 28 times 11 and 28 times 22.
fn write_values(folder: &Folder) {
    for value in [11, 22] {
        let values = format!("{value} ").repeat(28);
        folder.write(&format!("values{value}"), values.as_bytes());
    }
}

#[test]
fn power_is_taken_from_the_timing_file() {
    let folder = with_power("power_timing");
    write_values(&folder);
    let write = |bytes: &[u8]| Change::Write(b"TIMING".to_vec(), 0, bytes.to_vec());
    let create = Change::Create(b"TIMING".to_vec(), 64);
    let ((first, store), (second, store_again)) = (timing(7, 1, 11), timing(8, 2, 22));
    let opening = "timing open-lid v".to_string();
    let none = |number| [Err(number); 2];
    let absent = none("13");
    let mut made = vec![absent, absent, absent, absent, none("34")];
    made.push([Ok(11), Err("36")]);
    for (line, changes, boots) in [
        (store, vec![create, write(&first)], made),
        (
            store_again,
            vec![write(&second)],
            vec![[Ok(11), Err("36")], [Err("36"), Ok(22)]],
        ),
        (
            opening,
            vec![write(&[0; 4])],
            vec![[Err("36"), Ok(22)], none("34")],
        ),
    ] {
        let all = series(changes, &folder.read("old"));
        cut_in_every_way(&folder, &line, &all);
        boots_after_cuts(&folder, &line, &boots);
        folder.write("old", &all.last().unwrap().new);
    }
}

#[test]
fn power_is_taken_in_a_mend() {
    let folder = with_power("power_mend");
    let sound = folder.read("old");
    let mut stray = sound.clone();
    stray[512 + 7] |= 0x41;
    folder.write("old", &stray);
    for (option, circumstances) in IN_PLACE {
        let line = format!("mend v{option}");
        let (ran, stored) = run(&folder, &format!("TFS_CUT=0 {circumstances}"), &line);
        assert_eq!((ran.status, stored), (POWER_TAKEN, vec![]));
        assert!(folder.read("v") == stray);
        let (ran, stored) = run(&folder, &format!("TFS_CUT=1 {circumstances}"), &line);
        assert_eq!(
            (ran.text(), stored),
            ("map bits cleared: 2\n".into(), vec![1])
        );
        assert!(folder.read("v") == sound);
    }
    folder.write("old", &sound);
    let (ran, stored) = run(&folder, "TFS_CUT=0", "mend v --in-place");
    assert_eq!(
        (ran.text(), stored),
        ("map bits cleared: 0\n".into(), vec![])
    );
}

/// Where a flush fails nobody knows whether the block has been stored, also the first one.
#[test]
fn a_flush_that_fails_is_told() {
    let folder = with_power("power_flush");
    for (fail, line) in [
        (0, "remove v B --in-place"),
        (1, "remove v B --in-place"),
        (7, "put v new --name A --replace --in-place"),
    ] {
        let (ran, stored) = run(&folder, &format!("TFS_FAIL={fail}"), line);
        let told = format!(
            "tfs: v: Input/output error (os error 5); blocks stored before: {fail}, and perhaps \
             this one (tfs check tells whether to mend)\n"
        );
        assert_eq!((ran.status, ran.err), (3, told), "{line}");
        assert_eq!(stored.len(), fail, "{line}");
    }
}
