//! The number of content blocks, which put and get tell on request.

mod bench;

use bench::{some, Folder};

/// Sizes of files and the numbers of their content blocks.
const SIZES: [(usize, u32); 8] = [
    (0, 0),
    (1, 1),
    (511, 1),
    (512, 1),
    (513, 2),
    (1_024, 2),
    (1_025, 3),
    (65_024, 127),
];

fn line(blocks: u32) -> String {
    format!("content blocks: {blocks}\n")
}

/// A volume of 2 MiB with a file for each size.
fn with_files(name: &str) -> Folder {
    let folder = Folder::new(name);
    folder.tfs("make v --size 2M").granted();
    for (size, _) in SIZES {
        folder.write(&format!("f{size}"), &some(size));
        folder.tfs(&format!("put v f{size}")).granted();
    }
    folder
}

#[test]
fn put_tells_the_blocks_of_every_size() {
    let folder = Folder::new("blocks_put");
    folder.tfs("make v --size 2M").granted();
    folder.tfs("make w --size 2M").granted();
    for (size, blocks) in SIZES {
        folder.write("in", &some(size));
        let told = folder
            .tfs(&format!("put v in --name f{size} --blocks"))
            .text();
        assert_eq!(told, line(blocks), "{size}");
        let plain = folder.tfs(&format!("put w in --name f{size}")).text();
        assert_eq!(plain, "", "{size}");
    }
    assert!(folder.read("v") == folder.read("w"));
}

#[test]
fn get_tells_the_blocks_of_every_size() {
    let folder = with_files("blocks_get");
    for (size, blocks) in SIZES {
        let told = folder
            .tfs(&format!("get v f{size} out --force --blocks"))
            .text();
        assert_eq!(told, line(blocks), "{size}");
        assert!(folder.read("out") == some(size), "{size}");
        let told = folder
            .tfs(&format!("get --force --blocks v f{size}"))
            .text();
        assert_eq!(told, line(blocks), "{size}");
        let plain = folder.tfs(&format!("get v f{size} out --force")).text();
        assert_eq!(plain, "", "{size}");
    }
}

#[test]
fn standard_output_is_the_content_alone() {
    let folder = with_files("blocks_standard_output");
    for (size, blocks) in SIZES {
        let ran = folder.tfs(&format!("get v f{size} - --blocks"));
        assert_eq!((ran.status, ran.err), (0, line(blocks)), "{size}");
        assert!(ran.out == some(size), "{size}");
        let plain = folder.tfs(&format!("get v f{size} -")).granted();
        assert!(plain == some(size), "{size}");
    }
}

#[test]
fn standard_input_is_counted_too() {
    let folder = Folder::new("blocks_standard_input");
    folder.tfs("make v --size 64K").granted();
    let words = ["put", "v", "-", "--name", "a", "--blocks"];
    assert_eq!(folder.run_with(&words, &some(513)).text(), line(2));
}

#[test]
fn a_replacement_tells_its_own_blocks() {
    let folder = with_files("blocks_replace");
    folder.write("in", &some(600));
    for (size, _) in SIZES {
        let put = format!("put v in --name f{size} --replace --blocks");
        assert_eq!(folder.tfs(&put).text(), line(2), "{size}");
    }
    folder.write("in", b"");
    let put = "put v in --name f600 --replace --blocks";
    assert_eq!(folder.tfs(put).text(), line(0));
}

#[test]
fn what_is_refused_tells_no_blocks() {
    let folder = with_files("blocks_refused");
    folder.write("large", &some(65_025));
    folder.tfs("make small --size 2K").granted();
    for (command, message) in [
        ("put v f1", "v: refused 10: f1 stands already, in slot 1"),
        (
            "put v large",
            "v: refused 9: the size is over 65024 bytes, the most that a file may have",
        ),
        (
            "put v f1 --name a.name.that.is.too.long",
            "v: refused 8: the name is 23 bytes long, at most 15 are allowed",
        ),
        (
            "put small f1",
            "small: refused 12: too few free blocks: 2 needed with the inode, 1 free",
        ),
        ("get v none", "v: refused 13: no file has the name none"),
        ("get v none -", "v: refused 13: no file has the name none"),
        (
            "get large f1 -",
            "large: refused 2: the magic number is 462357, not 3745",
        ),
    ] {
        folder.refused(&format!("{command} --blocks"), 1, message);
    }
}

#[test]
fn what_cannot_be_written_tells_no_blocks() {
    let folder = with_files("blocks_not_written");
    let missing = "no/out: there is no folder no";
    folder.refused("get v f513 no/out --blocks", 3, missing);
    folder.refused("get v f513 v --blocks", 3, "v: is the image itself");
    let ran = folder.shell("tfs get v f513 - --blocks >/dev/full");
    assert_eq!(ran.status, 3);
    assert_eq!(
        ran.err,
        "tfs: standard output: No space left on device (os error 28)\n"
    );
    let ran = folder.shell("tfs get v f513 - --blocks 2>/dev/full");
    assert_eq!((ran.status, ran.out), (3, some(513)));
}

#[test]
fn a_trace_does_not_hold_the_blocks() {
    let folder = Folder::new("blocks_record");
    for image in ["v", "w"] {
        folder.tfs(&format!("make {image} --size 64K")).granted();
    }
    folder.write("in", &some(1_300));
    for command in [
        "put IMAGE in",
        "put IMAGE in --replace",
        "put IMAGE in",
        "get IMAGE in out --force",
        "get IMAGE in -",
        "get IMAGE none -",
    ] {
        let plain = command.replace("IMAGE", "v") + " --record t";
        let asked = command.replace("IMAGE", "w") + " --record u --blocks";
        let (plain, asked) = (folder.tfs(&plain), folder.tfs(&asked));
        assert_eq!(plain.status, asked.status, "{command}");
        assert!(folder.read("t") == folder.read("u"), "{command}");
    }
    assert!(folder.read("v") == folder.read("w"));
    let shown = folder.tfs("trace show u").text();
    assert_eq!(shown.lines().count(), 9);
}

#[test]
fn only_put_and_get_know_the_option() {
    let folder = with_files("blocks_option");
    for command in ["put", "get"] {
        let help = folder.tfs(&format!("{command} --help")).text();
        assert!(help.contains("[--blocks]"), "{command}");
        assert!(help.contains("\"content blocks: N\""), "{command}");
        let ran = folder.tfs(&format!("{command} v f1 --blocks=1"));
        assert_eq!(ran.status, 2);
        assert!(ran.err.contains("--blocks has no value"), "{}", ran.err);
    }
    for command in ["list v", "free v", "remove v f1", "check v"] {
        let ran = folder.tfs(&format!("{command} --blocks"));
        assert_eq!(ran.status, 2, "{command}");
        assert!(ran.err.contains("unknown option --blocks"), "{}", ran.err);
    }
}
