//! Files of zeros, and parts of files written and read.

mod bench;

use bench::json::{fails, prints, NOTHING};
use bench::{some, Folder};
use generate::Random;

const PAST_END: &str = "v: refused 15: offset 1301 is behind the end of f, which has 1300 bytes";

/// A volume "v" with a file "f" of 1,300 bytes, and a host file of 3,000.
fn with_file(name: &str) -> Folder {
    let folder = Folder::new(name);
    folder.tfs("make v --size 64K").granted();
    folder.write("f", &some(1300));
    folder.tfs("put v f").granted();
    folder.write("in", &some(3000));
    folder
}

#[test]
fn a_created_file_is_all_zeros() {
    let folder = Folder::new("create");
    folder.write("noise", &some(65_536));
    folder.shell("tfs make v -s 128k; dd if=noise of=v seek=3 conv=notrunc 2>/dev/null");
    for (name, size, bytes) in [
        ("none", "0", 0),
        ("hex", "0x201", 513),
        ("unit", "63KiB", 64_512),
    ] {
        assert!(folder
            .tfs(&format!("create v {name} {size}"))
            .granted()
            .is_empty());
        let content = folder.tfs(&format!("get v {name} -")).granted();
        assert!(content == vec![0; bytes], "{name}");
    }
    assert_eq!(folder.tfs("check v").text(), "consistent\n");
}

#[test]
fn a_created_file_tells_its_inode_number() {
    let folder = with_file("create_inode");
    let members = r#""name":"a\\xff","size":512,"inode":7"#;
    prints(&folder, "create v a\\xff 512 -x", members);
    assert_eq!(
        folder.tfs("list v").text(),
        " 0    3  1300 f\n 1    7   512 a\\xff\n"
    );
}

#[test]
fn a_create_is_refused_as_the_library_does() {
    let folder = with_file("create_refused");
    for (line, message) in [
        ("create v f 1", "refused 10: f stands already, in slot 0"),
        (
            "create v g 65025",
            "refused 9: the size is over 65024 bytes, the most that a file may have",
        ),
        (
            "create v g 63k",
            "refused 12: too few free blocks: 127 needed with the inode, 121 free",
        ),
    ] {
        folder.refused(line, 1, &format!("v: {message}"));
    }
    folder.refused("create v g 1x", 2, "create: SIZE 1x: no size in bytes");
}

/// What is written behind another part leaves that part.
#[test]
fn writes_at_any_offset_join() {
    let folder = with_file("parts_join");
    let (mut random, mut expected) = (Random::new(1), some(1300));
    for number in 0..40 {
        let offset = random.between(0, 1300);
        let length = random.between(0, 1300 - offset);
        let piece = random.bytes(length);
        folder.write("piece", &piece);
        expected[offset..offset + length].copy_from_slice(&piece);
        let place = if number % 2 == 0 { "--in-place" } else { "" };
        let put = format!("put v piece --name f --at {offset} {place}");
        assert!(folder.tfs(&put).granted().is_empty());
        assert!(folder.tfs("get v f -").granted() == expected, "{put}");
    }
    assert_eq!(folder.tfs("list v").text(), " 0    3  1300 f\n");
    assert_eq!(folder.tfs("check v").text(), "consistent\n");
}

#[test]
fn parts_that_are_read_join() {
    let folder = with_file("parts_cut");
    let mut joined = Vec::new();
    for (at, length) in [(0, 1), (1, 511), (512, 0), (512, 600), (0x458, 188)] {
        let part = format!("get v f - --at {at} --length {length}");
        joined.extend(folder.tfs(&part).granted());
    }
    assert!(joined == some(1300));
    assert!(folder.tfs("get v f - -a 1k").granted() == some(1300)[1024..]);
    assert!(folder.tfs("get v f - -c512").granted() == some(1300)[..512]);
    assert!(folder.tfs("get v f - -a 1300").granted().is_empty());
    folder.tfs("get v f part --at 3 --length 4").granted();
    assert!(folder.read("part") == some(1300)[3..7]);
}

#[test]
fn a_length_takes_the_first_bytes_of_the_host_file() {
    let folder = with_file("parts_length");
    folder.tfs("put v in -n f --at 100 --length 1200").granted();
    let expected = [&some(1300)[..100], &some(3000)[..1200]].concat();
    assert!(folder.tfs("get v f -").granted() == expected);
    folder.tfs("put v in --length 0x10").granted();
    assert!(folder.tfs("get v in -").granted() == some(16));
}

/// The library would write what there is room for.
#[test]
fn what_has_no_room_is_not_written_in_part() {
    let folder = with_file("parts_room");
    folder.write("large", &some(70_000));
    for (line, room, offset) in [
        ("put v in --name f --at 0", "1300 bytes", 0),
        ("put v in --name f --at 1 --length 1300", "1299 bytes", 1),
        ("put v f --at 1299", "1 byte", 1299),
        ("put v f --at 1300", "0 bytes", 1300),
        ("put v large --name f --at 700", "600 bytes", 700),
        (
            "put v large --name f --at 0 --length 69999",
            "1300 bytes",
            0,
        ),
    ] {
        let message = format!("v: f has room for only {room} from offset {offset} on");
        folder.refused(line, 1, &message);
        folder.refused(&format!("{line} --in-place"), 1, &message);
        folder.refused(&format!("{line} --record t"), 1, &message);
    }
    folder.refused("put v f --at 1301", 1, PAST_END);
    folder.refused(
        "put v in --at 0",
        1,
        "v: refused 13: no file has the name in",
    );
}

#[test]
fn a_host_file_with_too_few_bytes_is_told() {
    let folder = with_file("parts_few");
    let message = "f: has only 1300 bytes, not 1301";
    folder.refused("put v f --at 0 --length 1301", 3, message);
    folder.refused("put v f --name g --length 1301", 3, message);
    let message = "f: has only 1300 bytes, not 4294967295";
    folder.refused("put v f --name g -c 0xffffffff", 3, message);
    folder.write("one", b"1");
    folder.refused("put v one -c 2", 3, "one: has only 1 byte, not 2");
}

#[test]
fn a_part_that_is_not_there_whole_is_not_got() {
    let folder = with_file("parts_short");
    for (part, count, offset) in [
        ("--length 1301", "1300 bytes", 0),
        ("--at 1 --length 1300", "1299 bytes", 1),
        ("--at 1299 --length 2", "1 byte", 1299),
        ("--at 1300 --length 1", "0 bytes", 1300),
        ("--length 0xffffffff", "1300 bytes", 0),
    ] {
        let message = format!("v: f has only {count} from offset {offset} on");
        folder.refused(&format!("get v f out {part}"), 1, &message);
        folder.refused(&format!("get v f - {part} --record t"), 1, &message);
    }
    folder.refused("get v f out --at 1301", 1, PAST_END);
}

#[test]
fn parts_are_recorded_and_replayed() {
    let folder = with_file("parts_record");
    folder.write("start", &folder.read("v"));
    folder.write("two", b"ab");
    for line in [
        "create v two 3",
        "put v two --at 1",
        "put v two --at 0 --length 1",
        "get v two - --at 1 --length 1",
        "get v two - --at 2",
    ] {
        folder.tfs(&format!("{line} --record t")).granted();
    }
    let lines =
        "create \"two\" 3 -> granted\nwrite \"two\" 1 \"ab\" -> 2\nwrite \"two\" 0 \"a\" -> 1\n\
                 read \"two\" 1 1 -> \"a\"\nread \"two\" 2 65024 -> \"b\"\n";
    assert_eq!(folder.tfs("trace show t").text(), lines);
    folder.tfs("replay start t --out end").granted();
    assert!(folder.read("end") == folder.read("v"));
}

#[test]
fn a_program_is_told_what_was_moved() {
    let folder = with_file("parts_json");
    let moved = r#""name":"f","size":2,"blocks":2"#;
    prints(&folder, "put v in -n f --at 511 --length 2", moved);
    prints(&folder, "get v f out --at 511 --length 2", moved);
    let message = "v: f has room for only 1 byte from offset 1299 on";
    fails(&folder, "put v f --at 1299", 1, NOTHING, message);
}

#[test]
fn an_offset_goes_with_no_new_file() {
    let folder = with_file("parts_usage");
    folder.refused(
        "put v f --at 0 --replace",
        2,
        "put: --replace makes a new file, --at writes into one that stands",
    );
    folder.refused("put v f --at 1x", 2, "put: --at 1x: no size in bytes");
    let thousands = "kB may count in thousands or in 1,024; write k or KiB for 1,024";
    let message = format!("get: --length 1kB: {thousands}");
    folder.refused("get v f --length 1kB", 2, &message);
}
