//! Long files in little memory, and memory that runs out.

mod bench;

use bench::rom::{directory, file, image, sample, Node};
use bench::{some, Folder, Ran};
use std::fs::{self, OpenOptions};
use std::os::unix::fs::{FileExt, MetadataExt};

const GIB: u64 = 1 << 30;

/// The bytes of memory that a command may have: fewer than any long file here has.
const MEMORY: u64 = 64 << 20;

/// Runs the tool in little memory.
fn limited(folder: &Folder, line: &str) -> Ran {
    folder.shell(&format!("ulimit -v {}; exec tfs {line}", MEMORY / 1024))
}

/// Gives a file a length, with a hole behind what it has, and some last bytes.
fn lengthen(folder: &Folder, name: &str, length: u64) {
    let file = OpenOptions::new()
        .write(true)
        .open(folder.path(name))
        .unwrap();
    file.set_len(length).unwrap();
    file.write_all_at(b"end", length - 3).unwrap();
}

fn with_volume(name: &str, length: u64) -> Folder {
    let folder = Folder::new(name);
    folder.tfs("make v --size 2M").granted();
    folder.write("in", &some(3000));
    folder.tfs("put v in").granted();
    lengthen(&folder, "v", length);
    folder
}

#[test]
fn a_long_image_is_read_in_little_memory() {
    let folder = with_volume("memory_read", 3 * GIB);
    for (line, told) in [
        ("check v", "consistent\n"),
        ("list v", " 0    3  3000 in\n"),
        ("free v", "2092032\n"),
        ("mend v", "map bits cleared: 0\n"),
        ("extract v out", ""),
        (
            "put v in --name b --in-place --blocks",
            "content blocks: 6\n",
        ),
    ] {
        assert_eq!(limited(&folder, line).text(), told, "{line}");
    }
    assert!(limited(&folder, "get v b -").granted() == some(3000));
    let ran = limited(&folder, "dump v inode 4096");
    let message = "tfs: v: as a volume ends at byte 2097152, that part begins at 2097152\n";
    assert_eq!((ran.status, ran.err.as_str()), (3, message));
}

/// What the file has behind its volume.
fn is_long(folder: &Folder, name: &str, length: u64) {
    let file = fs::File::open(folder.path(name)).unwrap();
    let found = file.metadata().unwrap();
    assert_eq!(found.len(), length);
    // The hole is one still.
    assert!(found.blocks() * 512 < 16 << 20, "{}", found.blocks());
    let mut end = [0; 4];
    file.read_exact_at(&mut end, length - 4).unwrap();
    assert_eq!(&end, b"\0end");
}

#[test]
fn a_long_image_is_rewritten_in_little_memory() {
    let length = 4 * MEMORY + 5;
    let folder = with_volume("memory_write", length);
    for line in [
        "put v in --name b --record t",
        "remove v in",
        "replay v t --out w",
    ] {
        let ran = limited(&folder, line);
        let status = if line.starts_with("replay") { 4 } else { 0 };
        assert_eq!(ran.status, status, "{line}: {}", ran.err);
        is_long(&folder, "v", length);
    }
    is_long(&folder, "w", length);
    assert!(folder.tfs("get v b -").granted() == some(3000));
}

/// Bytes behind the volume that are no zeros stay where they are, over the pieces of a copy.
#[test]
fn what_stands_behind_a_volume_is_copied() {
    let folder = with_volume("memory_behind", 2 << 20);
    let behind: Vec<u8> = [some(3 << 20), vec![0; 2 << 20], some(77), vec![0; 5]].concat();
    folder.write("v", &[&folder.read("v")[..], &behind].concat());
    folder.tfs("remove v in").granted();
    assert!(folder.read("v")[2 << 20..] == behind);
}

#[test]
fn a_long_image_is_made_in_little_memory() {
    let folder = Folder::new("memory_make");
    folder.write("w", b"");
    for line in ["make v --size 3072M", "make w --size 3072M --force"] {
        limited(&folder, line).granted();
    }
    for name in ["v", "w"] {
        let found = fs::metadata(folder.path(name)).unwrap();
        assert_eq!(found.len(), 3 * GIB);
        assert_eq!(folder.tfs(&format!("check {name}")).text(), "consistent\n");
    }
}

#[test]
fn a_romfs_image_is_read_up_to_its_full_size() {
    let folder = Folder::new("memory_rom");
    folder.write("i", &sample());
    let list = folder.tfs("rom list i").text();
    lengthen(&folder, "i", 3 * GIB);
    assert_eq!(limited(&folder, "rom check i").text(), "accepted\n");
    assert_eq!(limited(&folder, "rom list i").text(), list);
    assert!(limited(&folder, "rom cat i boot.cfg").granted() == some(100));
    assert_eq!(limited(&folder, "rom extract i out").status, 7);
}

#[test]
fn a_long_file_that_is_no_romfs_image_is_not_read() {
    let folder = with_volume("memory_no_rom", 3 * GIB);
    let ran = limited(&folder, "rom check v");
    let message = "tfs: v: refused 22: the image does not begin with \"-rom1fs-\"\n";
    assert_eq!((ran.status, ran.err.as_str()), (1, message));
}

#[test]
fn memory_that_runs_out_is_told() {
    let folder = with_volume("memory_out", 2 << 20);
    let mut header = sample();
    header[8..12].copy_from_slice(&(GIB as u32).to_be_bytes());
    folder.write("i", &header);
    folder.write("t", b"");
    for name in ["i", "t"] {
        lengthen(&folder, name, GIB);
    }
    for (line, name) in [
        ("rom check i", "i"),
        ("rom extract i out", "i"),
        ("trace show t", "t"),
        ("trace make t u", "t"),
        ("replay v t", "t"),
        ("free v --record t", "t"),
    ] {
        let ran = limited(&folder, line);
        let told = format!("tfs: {name}: out of memory\n");
        assert_eq!((ran.status, ran.err), (3, told), "{line}");
    }
    assert_eq!(folder.names(), ["i", "in", "t", "v"]);
}

/// A file of values that has no end is not read to it.
#[test]
fn no_more_than_64_kib_of_values_are_read() {
    let folder = with_volume("memory_values", 2 << 20);
    let values = "7 ".repeat(28);
    let spaces = |count: usize| " ".repeat(count - values.len());
    folder.write("long", (values.clone() + &spaces(1 << 16)).as_bytes());
    let line = "timing store v --board 1 --maker 1";
    folder.tfs(&format!("{line} long")).granted();
    folder.write("over", (values.clone() + &spaces((1 << 16) + 1)).as_bytes());
    for name in ["over", "/dev/zero"] {
        let message = format!("{name}: over 65536 bytes stand there, not 28 values");
        folder.refused(&format!("{line} {name}"), 5, &message);
    }
}

/// All lines together take more memory than there is, none alone does.
#[test]
fn a_long_trace_is_shown_in_little_memory() {
    let folder = with_volume("memory_trace", 2 << 20);
    let bytes = "a".repeat(1 << 20);
    folder.write(
        "line",
        format!("write \"in\" 0 \"{bytes}\" -> 1\n").as_bytes(),
    );
    folder.tfs("trace make line t").granted();
    let count = 24;
    folder.write("t", &folder.read("t").repeat(count));
    let shown = count * folder.read("line").len();
    assert_eq!(counted(&folder, "trace show t"), shown);
    let object = "{\"tfs\":1,\"command\":\"trace show\",\"records\":[]}\n";
    let record = "{\"request\":\"write\",\"name\":\"in\",\"offset\":0,\"bytes\":\"\",\"count\":1}";
    let shown = object.len() + count * (record.len() + 1 + bytes.len()) - 1;
    assert_eq!(counted(&folder, "trace show t --json"), shown);
}

/// The name of a directory stands in the path of each of its entries.
#[test]
fn a_long_list_is_shown_in_little_memory() {
    let folder = Folder::new("memory_list");
    let name = "d".repeat(200 << 10);
    let entries = (100..300).map(|number: u32| file(number.to_string().as_bytes(), b""));
    let entries: Vec<Node> = entries.collect();
    let paths = entries.len() * (name.len() + "/100".len()) + name.len();
    let lines = (entries.len() + 1) * ("      32 - file             0 \n".len());
    folder.write("i", &image(&[directory(name.as_bytes(), entries)]));
    assert_eq!(counted(&folder, "rom list i"), paths + lines);
    assert!(counted(&folder, "rom list i --json") > paths + lines);
    // The host cannot have the directory.
    assert_eq!(limited(&folder, "rom extract i out --json").status, 7);
}

/// The number of bytes that the tool prints in little memory.
fn counted(folder: &Folder, line: &str) -> usize {
    let line = format!("{line} >printed; status=$?; wc -c <printed; exit $status");
    let line = format!("ulimit -v {}; tfs {line}", MEMORY / 1024);
    folder.shell(&line).text().trim().parse().unwrap()
}

/// A path takes more memory than there is.
#[test]
fn the_memory_of_a_path_may_run_out() {
    let folder = Folder::new("memory_path");
    folder.write("i", &image(&[file(&vec![b'a'; 4 << 20], b"")]));
    for line in ["rom list i", "rom list i --json", "rom extract i out"] {
        let ran = limited(&folder, line);
        let told = "tfs: i: out of memory\n";
        assert_eq!((ran.status, ran.err.as_str()), (3, told), "{line}");
    }
    assert_eq!(folder.names(), ["i"]);
}

/// The line of a record may be four times as long as the record, and take as much to be made.
#[test]
fn the_memory_of_a_line_may_run_out() {
    let folder = with_volume("memory_line", 2 << 20);
    let line = |count: usize| format!("write \"in\" 0 \"{}\" -> 1\n", "\\x00".repeat(count));
    folder.write("small", line(100).as_bytes());
    folder.tfs("trace make small s").granted();
    assert_eq!(limited(&folder, "trace show s").text(), line(100));
    folder.write("large", line(6 << 20).as_bytes());
    folder.tfs("trace make large t").granted();
    for (command, name) in [
        ("trace make large u", "large"),
        ("trace show t", "t"),
        ("trace show t --json", "t"),
        ("replay v t", "t"),
    ] {
        let ran = limited(&folder, command);
        let told = format!("tfs: {name}: out of memory\n");
        assert_eq!((ran.status, ran.err), (3, told), "{command}");
    }
}

/// Wherever the memory of a command ends, that is one line and a status of its own, and no abort.
#[test]
fn memory_that_runs_out_anywhere_is_a_failure() {
    let folder = Folder::new("memory_anywhere");
    folder.tfs("make v --size 2M").granted();
    for name in ["a", "b", "c", "d"] {
        folder.write(name, &some(60_000));
        folder.tfs(&format!("put v {name}")).granted();
    }
    let mut broken = folder.read("v");
    broken[512..1024].iter_mut().for_each(|byte| *byte ^= 0x55);
    folder.write("w", &broken);
    let mut ended = 0;
    for line in ["map v --svg -", "check --all w", "info -j w", "get v a -"] {
        for kib in (5_400..9_000).step_by(400) {
            let ran = folder.shell(&format!("ulimit -v {kib}; exec tfs {line}"));
            if ran.status != 3 {
                assert!((0..=1).contains(&ran.status), "{line}, {kib}: {ran:?}");
                continue;
            }
            assert_eq!(ran.err.lines().count(), 1, "{line}, {kib}");
            assert!(ran.err.contains("out of memory"), "{line}, {kib}");
            ended += 1;
        }
    }
    assert!(ended > 0);
}

#[test]
fn a_file_over_the_limit_is_a_failure() {
    let folder = with_volume("memory_limit", 2 << 20);
    let ran = folder.shell("ulimit -f 20; exec tfs put v in --name b");
    assert_eq!(ran.status, 3);
    assert_eq!(ran.err, "tfs: v: File too large (os error 27)\n");
    assert_eq!(folder.names(), ["in", "v"]);
}
