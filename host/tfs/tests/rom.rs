//! The commands on romfs images.

mod bench;

use bench::rom::*;
use bench::{some, Folder};
use generate::romfs::{damage_rom, rom, RomPlan};
use generate::Random;
use reference::romfs::FileType;
use std::fs;
use std::os::unix::fs::{MetadataExt, PermissionsExt};

#[test]
fn the_image_of_the_rules() {
    let folder = Folder::new("rom_of_the_rules");
    let words: [u32; 16] = [
        0x2D726F6D, 0x3166732D, 0x40, 0x4B271D26, 0x56000000, 0, 0, 0, 2, 0, 0, 0x9EFFFFFE,
        0x61000000, 0, 0, 0,
    ];
    let bytes: Vec<u8> = words.iter().flat_map(|word| word.to_be_bytes()).collect();
    assert_eq!(image(&[file(b"a", b"")]), bytes);
    folder.write("i", &bytes);
    assert_eq!(folder.tfs("rom check i").text(), "accepted\n");
    assert_eq!(
        folder.tfs("rom list i").text(),
        "      32 - file             0 a\n"
    );
    assert_eq!(folder.tfs("rom cat i a").granted(), b"");
    folder.tfs("rom extract i out").granted();
    assert_eq!(folder.read("out/a"), b"");
}

#[test]
fn the_list_has_whole_paths() {
    let folder = Folder::new("rom_list");
    folder.write("i", &sample());
    let lines = "      32 - directory        0 . -> header 32
      64 - hardlink         0 .. -> header 32
      96 - file           100 boot.cfg
     240 - directory        0 bin
     272 x file            20 bin/run
     336 - directory        0 bin/low
     368 - symlink          7 to -> bin/run
     416 - hardlink         0 again -> header 96
     448 - char             0 tty 5,1
     480 - fifo             0 pipe\n";
    assert_eq!(folder.tfs("rom list i").text(), lines);
}

#[test]
fn files_are_printed_by_path() {
    let folder = Folder::new("rom_cat");
    folder.write("i", &sample());
    for path in ["boot.cfg", "/boot.cfg", "again", "./again", "../boot.cfg"] {
        assert!(
            folder.tfs(&format!("rom cat i {path}")).granted() == some(100),
            "{path}"
        );
    }
    assert!(folder.tfs("rom cat i bin//run").granted() == some(20));
    assert_eq!(folder.tfs("rom cat i to").granted(), b"bin/run");
}

#[test]
fn a_path_that_leads_to_no_content_is_told() {
    let folder = Folder::new("rom_cat_refused");
    folder.write("i", &sample());
    for (path, why) in [
        ("boot", "30: the root directory has no entry boot"),
        ("bin/low/run", "30: directory at 336 (low) has no entry run"),
        ("/", "31: the root directory is no file"),
        (
            "bin",
            "31: directory at 240 (bin) is no file and no symbolic link",
        ),
        (
            "tty",
            "31: character device at 448 (tty) is no file and no symbolic link",
        ),
        ("to/run", "31: symbolic link at 368 (to) is no directory"),
        ("boot.cfg/x", "31: file at 96 (boot.cfg) is no directory"),
        (
            "tty/..",
            "31: character device at 448 (tty) is no directory",
        ),
    ] {
        let message = format!("i: refused {why}");
        folder.refused(&format!("rom cat i {path}"), 1, &message);
    }
}

#[test]
fn the_tree_is_extracted() {
    let folder = Folder::new("rom_extract");
    folder.write("i", &sample());
    let report = "skipped tty: char 5,1\nskipped pipe: fifo\n";
    let told = format!("{report}tfs: out/: extracted but for 2 entries\n");
    let ran = folder.tfs("rom extract i out/");
    assert_eq!((ran.status, ran.err, ran.out.len()), (7, told, 0));
    assert!(folder.read("out/boot.cfg") == some(100));
    assert!(folder.read("out/bin/run") == some(20));
    assert_eq!(fs::read_dir(folder.path("out/bin/low")).unwrap().count(), 0);
    assert_eq!(
        fs::read_link(folder.path("out/to")).unwrap().to_str(),
        Some("bin/run")
    );
    let about = |name: &str| fs::metadata(folder.path(name)).unwrap();
    assert_eq!(about("out/again").ino(), about("out/boot.cfg").ino());
    assert_ne!(about("out/bin/run").permissions().mode() & 0o100, 0);
    assert_eq!(about("out/boot.cfg").permissions().mode() & 0o111, 0);
    assert_eq!(fs::read_dir(folder.path("out")).unwrap().count(), 4);
    assert_eq!(folder.names(), ["i", "out"]);
    folder.refused("rom extract i out", 3, "out: exists already");
    folder.refused("rom extract i no/out", 3, "no/out: there is no folder no");
}

fn hostile(absolute: &str) -> Vec<u8> {
    let inner = || vec![file(b"evil", b"x"), file(b"../evil", b"x")];
    image(&[
        file(b"../evil", b"x"),
        file(b"..", b"x"),
        symbolic_link(b"d", b"../target"),
        directory(b"d", inner()),
        file(absolute.as_bytes(), b"x"),
        directory(b"../target", inner()),
        hard_link(b"d", FIRST),
        hard_link(b"target/evil", FIRST),
        hard_link(b"dir", 176),
        hard_link(b"kept", FIRST),
        file(&[b'n'; 256], b"x"),
        symbolic_link(b"empty", b""),
        symbolic_link(b"zero", b"a\0b"),
        file(b"back\\slash\n", b"x"),
    ])
}

#[test]
fn nothing_leaves_the_folder() {
    let folder = Folder::new("rom_hostile");
    fs::create_dir(folder.path("target")).unwrap();
    // A tool that took this name would still stay in the folder of this test.
    let absolute = folder.path("evil").display().to_string();
    folder.write("i", &hostile(&absolute));
    let name = "a slash in the name";
    let report = format!(
        "skipped ../evil: {name}\nskipped ..: the host keeps this name for folders
skipped d: the name stands already\nskipped {absolute}: {name}\nskipped ../target: {name}
skipped d: the name stands already\nskipped target/evil: {name}
skipped dir: hard link to a directory\nskipped {}: a name of 256 bytes, over 255
skipped empty: an empty target\nskipped zero: a zero byte in the target
tfs: out: extracted but for 11 entries\n",
        "n".repeat(256)
    );
    let ran = folder.tfs("rom extract i out");
    assert_eq!((ran.status, ran.err), (7, report));
    assert_eq!(folder.names(), ["i", "out", "target"]);
    assert_eq!(fs::read_dir(folder.path("target")).unwrap().count(), 0);
    assert_eq!(fs::read_dir(folder.path("out")).unwrap().count(), 3);
    assert_eq!(
        [folder.read("out/kept"), folder.read("out/back\\slash\n")],
        [b"x", b"x"]
    );
}

#[test]
fn an_extract_that_fails_half_way_leaves_nothing() {
    let folder = Folder::new("rom_half_way");
    let deep = directory(b"dir", vec![file(b"large", &some(50_000))]);
    folder.write("i", &image(&[file(b"small", b"x"), deep]));
    let ran = folder.shell("trap '' XFSZ; ulimit -f 8; exec tfs rom extract i out");
    let message = "tfs: out/dir/large: File too large (os error 27)\n";
    assert_eq!((ran.status, ran.err.as_str()), (3, message));
    assert_eq!(folder.names(), ["i"]);
}

/// The folder is whole but for what is skipped, so it stays also where nobody can be told.
#[test]
fn an_extract_that_skipped_entries_has_a_status_of_its_own() {
    let folder = Folder::new("rom_skipped");
    folder.write("i", &sample());
    assert_eq!(folder.shell("tfs rom extract i full 2>/dev/full").status, 7);
    assert_eq!(folder.shell("tfs rom extract i shut 2>&-").status, 7);
    assert!(folder.read("full/boot.cfg") == folder.read("shut/boot.cfg"));
    let one = image(&[file(b"a", b"x"), file(b"a", b"y")]);
    folder.write("i", &one);
    let ran = folder.tfs("rom extract i one");
    let told = "skipped a: the name stands already\ntfs: one: extracted but for 1 entry\n";
    assert_eq!((ran.status, ran.err.as_str()), (7, told));
    assert_eq!(folder.read("one/a"), b"x");
}

#[test]
fn every_fault_of_an_image_is_named() {
    let folder = Folder::new("rom_faults");
    for rule in 21..=29 {
        let spine = if rule == 28 { 9 } else { 3 };
        let (image, place) = (0..)
            .find_map(|seed| {
                let mut random = Random::new(seed);
                let plan = RomPlan {
                    entries: 14,
                    content: 40,
                    spine,
                };
                let sound = rom(&mut random, plan);
                let (image, fault) = damage_rom(&mut random, &sound, rule)?;
                (fault.number == rule).then_some((image, fault.place))
            })
            .unwrap();
        folder.write("i", &image);
        let message = folder.tfs("rom check i").err;
        let message = message.strip_prefix("tfs: ").unwrap().trim_end();
        let (begin, told) = fault_words(rule, place);
        let begin = format!("i: refused {rule}: {begin}");
        assert!(message.starts_with(&begin), "{message}");
        assert!(message.contains(&told), "{message}");
        for line in ["rom list i", "rom extract i out", "rom cat i a"] {
            folder.refused(line, 1, message);
        }
    }
}

/// How the cause of a fault begins, and the place that it tells.
fn fault_words(rule: u32, place: u32) -> (&'static str, String) {
    match rule {
        21 => ("the image has ", String::new()),
        22 => ("the image does not begin with \"-rom1fs-\"", String::new()),
        23 => ("the full size is ", String::new()),
        24 => ("the first ", " bytes have a wrong checksum: ".to_string()),
        25 => ("the volume name has no end ", String::new()),
        _ => ("", format!(" at {place} ")),
    }
}

#[test]
fn made_images_are_listed_and_extracted() {
    let folder = Folder::new("rom_made");
    for seed in 0..60 {
        let mut random = Random::new(seed);
        let plan = RomPlan::small(&mut random);
        let made = rom(&mut random, plan);
        folder.write("i", &made.image);
        let list = folder.tfs("rom list i").text();
        let listed = list.lines().map(|line| line[..8].trim().parse().unwrap());
        let placed = made.entries.iter().map(|entry| entry.at);
        assert_eq!(listed.collect::<Vec<u32>>(), placed.collect::<Vec<u32>>());
        let ran = folder.tfs("rom extract i out");
        let skipped = ran.err.matches("skipped ").count();
        assert_eq!(ran.status, if skipped == 0 { 0 } else { 7 }, "{}", ran.err);
        assert_eq!(folder.names(), ["i", "out"]);
        for entry in made.entries.iter().filter(|entry| entry.depth == 1) {
            same_content(&folder, &made.image, entry.file_type, &entry.name);
        }
        fs::remove_dir_all(folder.path("out")).unwrap();
    }
}

/// A file of the root list is extracted as the library gives it, where it is the first of its name.
fn same_content(folder: &Folder, image: &[u8], file_type: FileType, name: &[u8]) {
    let Ok(name) = std::str::from_utf8(name) else {
        return;
    };
    let first = reference::romfs::find(image, 0, name.as_bytes()).unwrap();
    let first = reference::romfs::entry(image, first).unwrap();
    let plain = file_type == FileType::RegularFile && first.file_type == FileType::RegularFile;
    if plain && !name.contains('/') && !matches!(name, "." | "..") {
        let printed = folder.run(&["rom", "cat", "--", "i", name]).granted();
        assert!(folder.read(&format!("out/{name}")) == printed, "{name}");
    }
}
