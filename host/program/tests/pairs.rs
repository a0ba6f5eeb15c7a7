//! The line of the program is the one owed, byte for byte, and the files stay.

use std::ffi::{OsStr, OsString};
use std::fs;
use std::num::NonZeroU32;
use std::os::unix::ffi::OsStringExt;
use std::os::unix::fs::PermissionsExt;
use std::os::unix::process::CommandExt;
use std::process::Command;

use generate::tfs::{any_volume, damage_volume, scramble_volume, volume, Shape};
use generate::traces::{any_trace, session, Plan};
use generate::Random;
use program::{owed, path, printed, Folder, LONGEST, TROUBLE};
use reference::trace::{write_all, Record};

/// A volume of 128 blocks, 65,536 bytes.
fn largest(random: &mut Random) -> Vec<u8> {
    let mut image = volume(random, Shape::Full, 128).image;
    image.truncate(LONGEST);
    image
}

/// A trace of some length, from 5 on: one request with a name that no file may have.
fn trace_of(length: usize) -> Vec<u8> {
    let groups = [0, 0x80, 0x4000]
        .iter()
        .filter(|least| length >= **least + 4);
    let name = vec![b'x'; length - 2 - groups.count()];
    let expected = Err(NonZeroU32::new(8).expect("a refusal"));
    let record = Record::Remove {
        name: &name,
        expected,
    };
    let trace = write_all(&[record]).expect("a trace");
    assert_eq!(trace.len(), length);
    trace
}

#[test]
fn drawn_pairs_end_in_every_way() {
    let folder = Folder::new("drawn");
    let mut random = Random::new(1);
    let mut met = [0; 5];
    for _ in 0..500 {
        let made = any_volume(&mut random, 140);
        let plan = Plan {
            requests: random.pick(&[0, 1, 3, 8, 30]),
            longest: random.pick(&[0, 20, 600, 5_000]),
        };
        let trace = any_trace(&mut random, &made, plan);
        let rule = random.between(1, 40) as u32;
        let image = match damage_volume(&mut random, &made, rule) {
            Some((image, _)) => image,
            None if random.one_in(20) => scramble_volume(&mut random, &made),
            None => made.image,
        };
        let line = owed(&image, &trace);
        assert_eq!(folder.run_on(&image, &trace), line);
        met[usize::from(line.as_bytes()[0] - b'0')] += 1;
    }
    assert!(met.iter().all(|count| *count > 4), "{met:?}");
}

#[test]
fn every_refusal_of_the_check() {
    let folder = Folder::new("refusals");
    let mut random = Random::new(2);
    for rule in 1..=7 {
        let made = volume(&mut random, Shape::Scattered, 60);
        let (image, fault) = damage_volume(&mut random, &made, rule).expect("a fault");
        let line = format!("3 {rule} {}\n", fault.place);
        for trace in [&b""[..], b"\x05\x07", b"\x06"] {
            assert_eq!(folder.run_on(&image, trace), line);
        }
    }
}

#[test]
fn empty_files() {
    let folder = Folder::new("empty");
    let image = largest(&mut Random::new(3));
    assert_eq!(folder.run_on(&image, b""), "0 0\n");
    assert_eq!(folder.run_on(b"", b""), "3 1 0\n");
    assert_eq!(folder.run_on(b"", b"\x06"), "3 1 0\n");
    assert_eq!(folder.run(&["image", "/dev/null"]), "3 1 0\n");
    folder.write("image", &image);
    assert_eq!(folder.run(&["image", "/dev/null"]), "0 0\n");
    assert_eq!(folder.run(&["/dev/null", "trace"]), "3 1 0\n");
}

#[test]
fn files_of_the_greatest_length_and_one_more() {
    let folder = Folder::new("lengths");
    let image = largest(&mut Random::new(4));
    let longer = [&image[..], b"\0"].concat();
    for length in [LONGEST - 1, LONGEST] {
        assert_eq!(folder.run_on(&image, &trace_of(length)), "0 1\n");
        assert_eq!(
            folder.run_on(&image[..length], b"\x05\x07"),
            owed(&image[..length], b"\x05\x07")
        );
    }
    let mut trace = trace_of(LONGEST);
    trace[LONGEST - 1] = 9;
    assert_eq!(folder.run_on(&image, &trace), "2 1\n");
    trace[LONGEST - 1] = 0x80;
    assert_eq!(folder.run_on(&image, &trace), "1 1\n");
    for length in [LONGEST + 1, LONGEST + 2, 2 * LONGEST, 2 * LONGEST + 3] {
        assert_eq!(folder.run_on(&image, &trace_of(length)), TROUBLE);
    }
    assert_eq!(folder.run_on(&image, b"\x05\x07"), "2 1\n");
    assert_eq!(folder.run_on(&longer, b""), TROUBLE);
    assert_eq!(folder.run_on(&longer, &trace_of(LONGEST + 1)), TROUBLE);
    assert_eq!(folder.run_on(&vec![0; 1 << 20], b""), TROUBLE);
    // A file that cannot be taken goes before a volume that is refused.
    assert_eq!(folder.run_on(b"", &trace_of(LONGEST + 1)), TROUBLE);
}

#[test]
fn many_records() {
    let folder = Folder::new("many");
    let mut random = Random::new(5);
    let image = largest(&mut random);
    let records = b"\x02\0\x08".repeat(21_845);
    assert_eq!(folder.run_on(&image, &records), "0 21845\n");
    let last_differs = [&records[..records.len() - 1], b"\x09"].concat();
    assert_eq!(folder.run_on(&image, &last_differs), "2 21845\n");
    let malformed = [&records[..], b"\0"].concat();
    assert_eq!(folder.run_on(&image, &malformed), "1 21846\n");

    let made = volume(&mut random, Shape::Lived, 100);
    let plan = Plan {
        requests: 300,
        longest: 100,
    };
    let trace = session(&mut random, &made, plan);
    assert_eq!(folder.run_on(&made.image, &trace), "0 300\n");
}

#[test]
fn other_numbers_of_names() {
    let folder = Folder::new("words");
    folder.write("image", &largest(&mut Random::new(6)));
    folder.write("trace", b"");
    let none: [&str; 0] = [];
    assert_eq!(folder.run(&none), TROUBLE);
    assert_eq!(folder.run(&["image"]), TROUBLE);
    assert_eq!(folder.run(&["image", "trace", "trace"]), TROUBLE);
    assert_eq!(folder.run(&["image", "trace", ""]), TROUBLE);
    assert_eq!(folder.run(&["image", "trace"]), "0 0\n");
}

#[test]
fn files_that_cannot_be_read() {
    let folder = Folder::new("unread");
    folder.write("image", &largest(&mut Random::new(7)));
    folder.write("trace", b"");
    folder.write("empty", b"");
    fs::create_dir(folder.path("folder")).expect("a folder");
    for wrong in ["missing", "folder", "folder/none", "image/none", "", "."] {
        for words in [
            ["image", wrong],
            [wrong, "trace"],
            ["empty", wrong],
            [wrong, wrong],
        ] {
            assert_eq!(folder.run(&words), TROUBLE, "{words:?}");
        }
    }
    // A file without an end is longer than it may be.
    assert_eq!(folder.run(&["image", "/dev/zero"]), TROUBLE);
    assert_eq!(folder.run(&["/dev/zero", "trace"]), TROUBLE);
}

/// Root may read every file, so the program is run as nobody then.
#[test]
fn files_that_may_not_be_read() {
    const NOBODY: u32 = 65_534;
    let folder = Folder::new("shut");
    folder.write("image", &largest(&mut Random::new(8)));
    folder.write("trace", b"");
    folder.write("shut", b"");
    fs::copy(path(), folder.path("program")).expect("a copy of the program");
    let rights = |name: &str, mode| {
        fs::set_permissions(folder.path(name), fs::Permissions::from_mode(mode)).expect("rights");
    };
    for (name, mode) in [
        ("", 0o755),
        ("program", 0o755),
        ("image", 0o644),
        ("trace", 0o644),
        ("shut", 0),
    ] {
        rights(name, mode);
    }
    let run = |words: [&str; 2]| {
        let mut command = Command::new(folder.path("program"));
        command.args(words).current_dir(folder.path(""));
        if fs::read(folder.path("shut")).is_ok() {
            command.uid(NOBODY);
        }
        printed(&mut command)
    };
    assert_eq!(run(["image", "trace"]), "0 0\n");
    assert_eq!(run(["image", "shut"]), TROUBLE);
    assert_eq!(run(["shut", "trace"]), TROUBLE);
}

#[test]
fn names_of_any_text() {
    let folder = Folder::new("names");
    let image = largest(&mut Random::new(9));
    let long = "n".repeat(255);
    let names = ["\u{FF}\n '\"$*\\", &long, "-", "--help", " "];
    for name in names {
        folder.write(name, &image);
        folder.write("trace", b"\x05\x07");
        assert_eq!(folder.run(&[name, "trace"]), "2 1\n", "{name:?}");
        folder.write("image", &image);
        folder.write(name, b"\x02\0\x08");
        assert_eq!(folder.run(&["image", name]), "0 1\n", "{name:?}");
    }
    assert_eq!(folder.run(&["image", "image"]), "1 1\n");
    let (image, trace) = (folder.path("image"), folder.path("trace"));
    assert_eq!(folder.run(&[&image, &trace]), "2 1\n");
}

/// The standard library that the program opens files by takes UTF-8 alone.
#[test]
fn names_that_are_not_utf_8() {
    let folder = Folder::new("bytes");
    let image = largest(&mut Random::new(10));
    let trace = b"\x02\0\x08";
    folder.write("image", &image);
    folder.write("trace", trace);
    for bytes in [
        &b"\xFF\n '\"$*\\"[..],
        b"n\xC3",
        b"\xED\xA0\x80",
        b"\xC0\xAE",
    ] {
        let name = OsString::from_vec(bytes.to_vec());
        let read = || fs::read(folder.path(&name)).expect("a file is read");
        folder.write(&name, &image);
        assert_eq!(
            folder.run(&[&name, OsStr::new("trace")]),
            TROUBLE,
            "{name:?}"
        );
        assert!(read() == image, "{name:?}");
        folder.write(&name, trace);
        assert_eq!(
            folder.run(&[OsStr::new("image"), &name]),
            TROUBLE,
            "{name:?}"
        );
        assert!(read() == trace, "{name:?}");
    }
    assert_eq!(folder.run(&["image", "trace"]), "0 1\n");
}
