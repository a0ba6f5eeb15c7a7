//! Traces: shown, made of lines, and replayed.

mod bench;

use bench::Folder;
use generate::tfs::any_volume;
use generate::traces::{change_answer, damage_trace, session, AnswerChange, Plan, TraceFault};
use generate::Random;
use reference::trace::{read_all, replay, Replayed};

const LINES: &str = "\
create \"TIMING\" 1000 -> granted
create \"TIMING\" 8 -> refused 10
write \"TIMING\" 998 \"a\\x22\\x5c\\x00\" -> 2
read \"TIMING\" 997 4294967295 -> \"\\x00a\\x22\"
remove \"\" -> refused 8
free -> 62464
remove \"TIMING\" -> granted
";

/// A folder with an empty volume and a trace for it.
fn with_trace(name: &str) -> Folder {
    let folder = Folder::new(name);
    folder.tfs("make v --size 64K").granted();
    folder.write("lines", LINES.as_bytes());
    folder.tfs("trace make lines t").granted();
    folder
}

#[test]
fn lines_are_made_and_shown() {
    let folder = with_trace("trace_lines");
    let trace = folder.read("t");
    assert!(trace.starts_with(b"\x01\x06TIMING\xE8\x07\0\x01\x06TIMING\x08\x0A\x04"));
    assert_eq!(folder.tfs("trace show t").text(), LINES);
    let made = folder.run_with(&["trace", "make", "-", "u"], b"# none\n\nfree -> 7");
    made.granted();
    assert_eq!(folder.read("u"), b"\x05\0\x07");
    folder.tfs("trace make /dev/null t --force").granted();
    assert_eq!(folder.read("t"), b"");
    assert_eq!(folder.tfs("trace show t").text(), "");
}

#[test]
fn any_trace_is_shown_and_made_again() {
    let folder = Folder::new("trace_again");
    let mut random = Random::new(1);
    for _ in 0..12 {
        let made = any_volume(&mut random, 40);
        let plan = Plan {
            requests: 30,
            longest: 600,
        };
        let trace = session(&mut random, &made, plan);
        folder.write("t", &trace);
        let lines = folder.tfs("trace show t").text();
        assert_eq!(lines.lines().count(), 30);
        folder.write("lines", lines.as_bytes());
        folder.tfs("trace make lines again --force").granted();
        assert!(folder.read("again") == trace);
    }
}

#[test]
fn a_malformed_trace_is_shown_as_far_as_it_goes() {
    let folder = with_trace("trace_malformed");
    let mut trace = folder.read("t");
    trace.truncate(trace.len() - 1);
    folder.write("t", &trace);
    let ran = folder.tfs("trace show t");
    let at = trace.len() - 8;
    let message = format!("tfs: t: record 7 at byte {at} is malformed\n");
    assert_eq!((ran.status, ran.err), (5, message));
    let shown = LINES.lines().take(6).map(|line| format!("{line}\n"));
    assert_eq!(
        String::from_utf8(ran.out).unwrap(),
        shown.collect::<String>()
    );
    folder.write("t", b"\x06");
    folder.refused("trace show t", 5, "t: record 1 at byte 0 is malformed");
}

#[test]
fn a_bad_line_writes_nothing() {
    let folder = with_trace("trace_bad_line");
    folder.write("lines", b"free -> 1\n# remark\nfree -> one\n");
    folder.refused("trace make lines t", 5, "lines: line 3: one: no number");
    folder.refused("trace make lines new", 5, "lines: line 3: one: no number");
    folder.write("lines", b"\nremove \"\xFF\" 1 -> granted");
    let message = "lines: line 2: no request of a trace before the ->";
    folder.refused("trace make lines t", 5, message);
    folder.refused("trace make t t", 3, "t: is the file of the lines itself");
    for line in ["trace make - -", "trace make lines -"] {
        folder.refused(line, 2, "trace make: -: the trace needs a file");
    }
    // Standard input is not the file of that name.
    folder.tfs("trace make - ./-").granted();
    assert_eq!(folder.read("-"), b"");
}

#[test]
fn a_file_that_stands_is_replaced_only_by_force() {
    let folder = with_trace("trace_force");
    folder.write("w", b"kept");
    let message = "w: exists already (--force replaces it)";
    for line in ["trace make lines w", "replay v t --out w"] {
        folder.refused(line, 3, message);
    }
    folder.tfs("trace make lines w --force").granted();
    assert!(folder.read("w") == folder.read("t"));
    folder.tfs("replay v t --out w -f").granted();
    assert_eq!(folder.tfs("check w").text(), "consistent\n");
}

#[test]
fn a_session_is_replayed() {
    let folder = with_trace("replay");
    let before = folder.read("v");
    assert_eq!(folder.tfs("replay v t").text(), "records replayed: 7\n");
    assert!(folder.read("v") == before);
    assert_eq!(folder.names(), ["lines", "t", "v"]);
    folder.tfs("replay v t --out w").granted();
    assert!(folder.read("v") == before);
    let mut after = before.clone();
    assert_eq!(replay(&mut after, &folder.read("t")), Ok(Replayed::All(7)));
    assert!(folder.read("w") == after && after != before);
    folder.write("t", b"");
    assert_eq!(
        folder.tfs("replay v t --out w --force").text(),
        "records replayed: 0\n"
    );
    assert!(folder.read("w") == before);
}

/// Replays a trace of lines, which stops with a message, and gives the image after it.
fn stopped(folder: &Folder, lines: &str, status: i32, message: &str) -> Vec<u8> {
    folder.write("lines", lines.as_bytes());
    folder.tfs("trace make lines t --force").granted();
    folder.refused("replay v t", status, message);
    let ran = folder.tfs("replay v t --out w --force");
    assert_eq!((ran.status, ran.err), (status, format!("tfs: {message}\n")));
    assert_eq!(ran.out, b"");
    folder.read("w")
}

#[test]
fn a_differing_answer_is_told_and_its_effect_kept() {
    let folder = with_trace("replay_differs");
    let cases = [
        ("create \"B\" 9 -> refused 12", "granted"),
        (
            "create \"TIMING\" 9 -> granted",
            "refused 10: TIMING stands already, in slot 0",
        ),
        ("write \"TIMING\" 999 \"ab\" -> 2", "1"),
        (
            "read \"TIMING\" 996 4 -> \"\\x00\\x00\\x00\"",
            "\"\\x00\\x00\\x00\\x00\"",
        ),
        ("read \"TIMING\" 998 4294967295 -> \"ab\"", "\"\\x00\\x00\""),
        ("free -> 64000", "62464"),
        ("remove \"TIMING\" -> refused 13", "granted"),
    ];
    for (line, answered) in cases {
        let lines = format!("create \"TIMING\" 1000 -> granted\n{line}\nfree -> refused 1\n");
        let message = format!("t: record 2 differs: expected {line}; answered {answered}");
        let after = stopped(&folder, &lines, 4, &message);
        let mut owed = folder.read("v");
        replay(&mut owed, &folder.read("t")).unwrap();
        assert!(after == owed, "{line}");
    }
}

#[test]
fn a_long_answer_is_cut_in_the_message() {
    let folder = with_trace("replay_long");
    let create = "create \"A\" 1000 -> granted";
    let line = format!("read \"A\" 0 1000 -> \"{}\"", "b".repeat(1000));
    let expected = "b".repeat(159) + "... (1002 characters)";
    let answered = "\\x00".repeat(39) + "\\x0... (4002 characters)";
    let message = format!(
        "t: record 2 differs: expected read \"A\" 0 1000 -> \"{expected}; answered \"{answered}"
    );
    stopped(&folder, &format!("{create}\n{line}"), 4, &message);
}

#[test]
fn a_long_request_is_cut_before_both_answers() {
    let folder = with_trace("replay_long_request");
    let create = "create \"A\" 1000 -> granted";
    let line = format!("write \"A\" 1 \"{}\" -> 1000", "b".repeat(1000));
    let asked = format!("write \"A\" 1 \"{}... (1014 characters)", "b".repeat(147));
    let message = format!("t: record 2 differs: expected {asked} -> 1000; answered 999");
    stopped(&folder, &format!("{create}\n{line}"), 4, &message);
}

#[test]
fn a_malformed_record_stops_a_replay() {
    let folder = with_trace("replay_malformed");
    let trace = [&folder.read("t")[..], b"\x02\x01"].concat();
    folder.write("t", &trace);
    let at = trace.len() - 2;
    let message = format!("t: record 8 at byte {at} is malformed");
    folder.refused("replay v t", 5, &message);
    assert_eq!(folder.tfs("replay v t --out w").status, 5);
    let mut after = folder.read("v");
    assert_eq!(replay(&mut after, &trace), Ok(Replayed::Malformed(8)));
    assert!(folder.read("w") == after);
}

#[test]
fn a_refused_volume_is_not_replayed() {
    let folder = with_trace("replay_refused");
    let mut image = folder.read("v");
    image[515] = 0x0F;
    folder.write("v", &image);
    let message = "v: refused 7: block 3 is marked used and no file has it (tfs mend helps)";
    folder.refused("replay v t --out w", 1, message);
    folder.write("t", b"\x06");
    folder.refused("replay v t --out w", 1, message);
}

#[test]
fn replay_keeps_its_files_apart() {
    let folder = with_trace("replay_apart");
    folder.refused("replay v t --out v", 3, "v: is the image itself");
    folder.refused("replay v t --out ./t", 3, "./t: is the trace itself");
    let missing = "No such file or directory (os error 2)";
    folder.refused("replay no t", 3, &format!("no: {missing}"));
    folder.refused("replay v no", 3, &format!("no: {missing}"));
    folder.refused("replay v t --out no/w", 3, "no/w: there is no folder no");
    folder.refused("trace show no", 3, &format!("no: {missing}"));
    folder.refused("trace make no t", 3, &format!("no: {missing}"));
    folder.refused("trace make lines no/t", 3, "no/t: there is no folder no");
}

/// The status and the number that a replay owes are those of the reference.
#[test]
fn drawn_traces_end_as_they_should() {
    let folder = Folder::new("replay_drawn");
    let mut random = Random::new(5);
    let mut met = [0; 6];
    for round in 0..48 {
        let made = any_volume(&mut random, 40);
        let plan = Plan::small(&mut random);
        let mut trace = session(&mut random, &made, plan);
        let changed = match round % 3 {
            0 => None,
            1 => {
                let change = AnswerChange::ALL[round / 3 % 8];
                change_answer(&mut random, &trace, change)
            }
            _ => damage_trace(&mut random, &trace, TraceFault::ALL[round / 3 % 7]),
        };
        trace = changed.map_or(trace, |(trace, _)| trace);
        folder.write("v", &made.image);
        folder.write("t", &trace);
        let ran = folder.tfs("replay v t --out w --force");
        let mut image = made.image.clone();
        let (status, said) = match replay(&mut image, &trace).unwrap() {
            Replayed::All(count) => (0, format!("records replayed: {count}\n")),
            Replayed::Differs(number) => (4, format!("tfs: t: record {number} differs: ")),
            Replayed::Malformed(number) => (5, format!("tfs: t: record {number} at byte ")),
        };
        assert_eq!(ran.status, status);
        let told = String::from_utf8(ran.out).unwrap() + &ran.err;
        assert!(told.starts_with(&said), "{told}");
        assert!(folder.read("w") == image);
        assert!(folder.read("v") == made.image && folder.read("t") == trace);
        met[status as usize] += usize::from(read_all(&trace).is_ok() == (status != 5));
    }
    assert!([0, 4, 5].iter().all(|status| met[*status] > 3), "{met:?}");
}
