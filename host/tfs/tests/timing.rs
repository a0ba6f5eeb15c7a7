//! The timing file: shown, stored, booted from, and the lid opened.

mod bench;

use bench::Folder;

/// The values 11 to 38, as a host file may have them and as the tool prints them.
const LINES: &str = "   11    12    13    14    15    16    17
   18    19    20    21    22    23    24
   25    26    27    28    29    30    31
   32    33    34    35    36    37    38
";

/// Other values, each as large as it may be.
const LARGEST: &str = "65535 65535 65535 65535 65535 65535 65535
65535 65535 65535 65535 65535 65535 65535
65535 65535 65535 65535 65535 65535 65535
65535 65535 65535 65535 65535 65535 65535
";

const STORE: &str = "timing store IMAGE --board N --maker N VALUES [--in-place]";
const OPENED: &str = "v: refused 34: the timing file has board number 0: the lid was opened";
const NO_BOARD: &str = "v: refused 34: board number 0 cannot be stored";
const ABSENT: &str = "v: refused 13: there is no timing file (TIMING)";

/// A volume "v" with a file, and the values in a host file.
fn with_volume(name: &str) -> Folder {
    let folder = Folder::new(name);
    folder.tfs("make v --size 64K").granted();
    folder.write("other", b"content");
    folder.tfs("put v other").granted();
    folder.write("values", LINES.as_bytes());
    folder
}

/// The same with the values stored for board 7 of maker 1.
fn with_timing(name: &str) -> Folder {
    let folder = with_volume(name);
    folder
        .tfs("timing store v --board 7 --maker 1 values")
        .granted();
    folder
}

/// Puts a file of so many bytes as TIMING.
fn put_timing(folder: &Folder, size: usize) {
    folder.write("sized", &vec![1; size]);
    folder.tfs("put v sized --name TIMING --replace").granted();
}

#[test]
fn the_file_has_both_numbers_and_the_values() {
    let folder = with_volume("timing_bytes");
    let line = "timing store v --board 0x01020304 --maker 4294967295 values";
    assert!(folder.tfs(line).granted().is_empty());
    let mut bytes = vec![1, 2, 3, 4, 255, 255, 255, 255];
    bytes.extend((11..39).flat_map(|value| [0, value]));
    assert_eq!(folder.tfs("get v TIMING -").granted(), bytes);
    assert_eq!(folder.tfs("get v other -").granted(), b"content");
    let shown = format!("board: 16909060\nmaker: 4294967295\n{LINES}");
    assert_eq!(folder.tfs("timing show v").text(), shown);
    folder.write("values", LARGEST.as_bytes());
    folder.tfs(line).granted();
    bytes[8..].fill(255);
    assert_eq!(folder.tfs("get v TIMING -").granted(), bytes);
    assert!(folder.tfs("timing show v").text().ends_with(LARGEST));
}

#[test]
fn a_boot_gets_the_values_of_its_board_and_maker() {
    let folder = with_volume("timing_boot");
    folder.refused("timing boot v --board 7 --maker 1", 1, ABSENT);
    folder
        .tfs("timing store v --board 7 --maker 1 values")
        .granted();
    let before = folder.read("v");
    assert_eq!(
        folder.tfs("timing boot v --board 7 --maker 1").text(),
        LINES
    );
    assert_eq!(
        folder.tfs("timing boot v --board=0x7 --maker=0x1").text(),
        LINES
    );
    assert!(folder.read("v") == before);
    let board = "refused 36: the timing file is of board 7, not";
    let maker = "refused 37: the timing file is of memory maker 1, not";
    for (numbers, found, asked) in [
        ("--board 8 --maker 1", board, 8),
        ("--board 0 --maker 1", board, 0),
        ("--board 8 --maker 2", board, 8),
        ("--board 7 --maker 2", maker, 2),
        ("--board 7 --maker 0", maker, 0),
    ] {
        let message = format!("v: {found} {asked}");
        folder.refused(&format!("timing boot v {numbers}"), 1, &message);
    }
}

#[test]
fn after_the_lid_was_opened_values_must_be_stored_again() {
    let folder = with_timing("timing_lid");
    let stored = folder.read("v");
    assert!(folder.tfs("timing open-lid v").granted().is_empty());
    for numbers in [
        "--board 7 --maker 1",
        "--board 0 --maker 1",
        "--board 8 --maker 2",
    ] {
        folder.refused(&format!("timing boot v {numbers}"), 1, OPENED);
    }
    let shown = format!("board: 0 (the lid was opened)\nmaker: 1\n{LINES}");
    assert_eq!(folder.tfs("timing show v").text(), shown);
    let opened = folder.read("v");
    folder.tfs("timing open-lid v").granted();
    assert!(folder.read("v") == opened);
    folder
        .tfs("timing store v --board 7 --maker 1 values")
        .granted();
    assert!(folder.read("v") == stored);
    assert_eq!(
        folder.tfs("timing boot v --board 7 --maker 1").text(),
        LINES
    );
}

#[test]
fn a_file_that_is_absent_is_only_stored() {
    let folder = with_volume("timing_absent");
    for line in [
        "timing show v",
        "timing open-lid v",
        "timing open-lid v --in-place",
        "timing boot v --board 7 --maker 1",
    ] {
        folder.refused(line, 1, ABSENT);
    }
}

#[test]
fn another_size_is_refused() {
    let folder = with_volume("timing_size");
    for size in [0, 63, 65, 513] {
        put_timing(&folder, size);
        let sized = format!("v: refused 35: the timing file has {size} bytes, not 64");
        for line in [
            "timing show v",
            "timing store v --board 7 --maker 1 values",
            "timing store v --board 7 --maker 1 values --in-place",
            "timing open-lid v",
            "timing open-lid v --in-place",
            "timing boot v --board 7 --maker 1",
        ] {
            folder.refused(line, 1, &sized);
        }
        folder.refused("timing store v --board 0 --maker 1 values", 1, NO_BOARD);
    }
    put_timing(&folder, 64);
    let board = 0x0101_0101;
    let booted = folder.tfs(&format!("timing boot v --board {board} --maker {board}"));
    assert_eq!(booted.text(), LARGEST.replace("65535", "  257"));
}

#[test]
fn a_store_may_be_refused() {
    let folder = with_volume("timing_refused");
    let store = |board: u32, option: &str| {
        format!("timing store v --board {board} --maker 1 values{option}")
    };
    folder.refused(&store(0, ""), 1, NO_BOARD);
    folder.refused(&store(0, " --in-place"), 1, NO_BOARD);
    folder.write("large", &[0; 60_000]);
    folder.tfs("put v large").granted();
    folder.write("rest", &[0; 1_000]);
    folder.tfs("put v rest").granted();
    assert_eq!(folder.tfs("free v").text(), "512\n");
    folder.refused(
        &store(7, ""),
        1,
        "v: refused 12: too few free blocks: 2 needed with the inode, 1 free",
    );
    folder.tfs("remove v large").granted();
    folder.write("f", b"");
    for number in 0..23 {
        folder.tfs(&format!("put v f --name {number}")).granted();
    }
    for option in ["", " --in-place"] {
        folder.refused(
            &store(7, option),
            1,
            "v: refused 11: all 25 slots have a file",
        );
    }
    folder.refused(&store(0, ""), 1, NO_BOARD);
}

/// What stands in a full volume can be stored again.
#[test]
fn a_file_that_stands_needs_no_room() {
    let folder = with_timing("timing_full");
    folder.write("f", b"");
    for number in 0..22 {
        folder.tfs(&format!("put v f --name {number}")).granted();
    }
    folder.write("rest", &[0; 98 * 512]);
    folder.tfs("put v rest").granted();
    assert_eq!(folder.tfs("free v").text(), "0\n");
    for (board, option) in [(8, ""), (9, " --in-place")] {
        let line = format!("timing store v --board {board} --maker 1 values{option}");
        folder.tfs(&line).granted();
        let booted = folder.tfs(&format!("timing boot v --board {board} --maker 1"));
        assert_eq!(booted.text(), LINES);
    }
}

#[test]
fn values_have_several_forms() {
    let folder = with_volume("timing_forms");
    let mut words: Vec<String> = (11..39).map(|value| format!("{value}")).collect();
    words[0] = "0x00B".to_string();
    words[1] = "00012".to_string();
    words[27] = "0x26".to_string();
    for text in [
        words.join(" "),
        words.join("\n"),
        words.join("\r\n\t \n") + "\n",
    ] {
        let line = ["timing", "store", "v", "--board=7", "--maker=1", "-"];
        folder.run_with(&line, text.as_bytes()).granted();
        let booted = folder.tfs("timing boot v --board 7 --maker 1");
        assert_eq!(booted.text(), LINES);
    }
    let printed =
        "tfs timing boot v --board 7 --maker 1 | tfs timing store v --board 8 --maker 2 -";
    folder.shell(printed).granted();
    assert_eq!(
        folder.tfs("timing boot v --board 8 --maker 2").text(),
        LINES
    );
}

/// Values are judged before the image is looked at: here there is none.
#[test]
fn bad_values_have_status_5() {
    let folder = Folder::new("timing_values");
    let line = "timing store none --board 7 --maker 1 bad";
    for (count, stand) in [
        (0, "values stand"),
        (1, "value stands"),
        (27, "values stand"),
        (29, "values stand"),
        (56, "values stand"),
    ] {
        folder.write("bad", "7 ".repeat(count).as_bytes());
        let message = format!("bad: {count} {stand} there, not 28");
        folder.refused(line, 5, &message);
    }
    for (index, word) in [
        (0, &b"65536"[..]),
        (3, b"4294967296"),
        (27, b"-1"),
        (1, b"+1"),
        (2, b"0x10000"),
        (5, b"0x"),
        (6, b"0x+1"),
        (7, b"0X1"),
        (8, b"1f"),
        (9, b"1,2"),
        (10, b"\xff"),
    ] {
        let mut words = vec![&b"7"[..]; 28];
        words[index] = word;
        folder.write("bad", &words.join(&b' '));
        let message = format!("bad: value {} is no number from 0 to 65535", index + 1);
        folder.refused(line, 5, &message);
    }
}

#[test]
fn wrong_arguments_have_status_2() {
    let folder = with_volume("timing_usage");
    let missing = |command: &str, option: &str| format!("timing {command}: {option} is needed");
    for (line, message) in [
        (
            "timing store v values --maker 1",
            missing("store", "--board"),
        ),
        (
            "timing store v values --board 1",
            missing("store", "--maker"),
        ),
        ("timing boot v --maker 1", missing("boot", "--board")),
        ("timing boot v --board 1", missing("boot", "--maker")),
        (
            "timing store v --board 1 --maker 1",
            format!("timing store: an argument is missing; usage: tfs {STORE}"),
        ),
        (
            "timing store v values --board 1 --maker 1 --record t",
            format!("timing store: unknown option --record; usage: tfs {STORE}"),
        ),
        (
            "timing show v values",
            "timing show: too many arguments; usage: tfs timing show IMAGE".to_string(),
        ),
    ] {
        folder.refused(line, 2, &message);
    }
}

#[test]
fn a_board_or_a_maker_is_a_number() {
    let folder = with_volume("timing_numbers");
    let refused = |number: &str, why: &str| {
        let line = format!("timing boot v --board 1 --maker {number}");
        let message = format!("timing boot: --maker {number}: {why}");
        folder.refused(&line, 2, &message);
    };
    for number in ["x", "-1", "+1", "0x", "0x1g", "1K"] {
        refused(number, "no number");
    }
    for number in ["4294967296", "0x100000000"] {
        refused(number, "not below 2^32");
    }
}

#[test]
fn in_place_the_bytes_are_the_same() {
    let folder = with_volume("timing_in_place");
    folder.write("w", &folder.read("v"));
    folder.write("largest", LARGEST.as_bytes());
    for line in [
        "timing store IMAGE --board 7 --maker 1 values",
        "timing store IMAGE --board 8 --maker 2 largest",
        "timing open-lid IMAGE",
        "timing open-lid IMAGE",
        "timing store IMAGE --board 7 --maker 1 largest",
    ] {
        let changed = format!("{} --in-place", line.replace("IMAGE", "v"));
        folder.tfs(&changed).granted();
        folder.tfs(&line.replace("IMAGE", "w")).granted();
        assert!(folder.read("v") == folder.read("w"), "{line}");
    }
}
