//! What programs read of failures: one JSON object on one line.

mod bench;

use bench::json::{accepted, fails, with_volume, NOTHING};
use bench::rom::{file, image, sample};
use bench::Folder;
use std::fs::File;

#[test]
fn a_failure_is_an_object_too() {
    let folder = with_volume("json_failures");
    let refused = [("refusal", "13")];
    let none = "v: refused 13: no file has the name none";
    fails(&folder, "get v none out", 1, &refused, none);
    let missing = "none: No such file or directory (os error 2)";
    fails(&folder, "check none", 3, NOTHING, missing);
    let usage = "list: too many arguments; usage: tfs list IMAGE";
    fails(&folder, "list v w", 2, NOTHING, usage);
    let unknown = "list: unknown option --forse; usage: tfs list IMAGE";
    fails(&folder, "list --forse v", 2, NOTHING, unknown);
    let differs =
        "t: record 1 differs: expected create \"TIMING\" 22 -> granted; answered refused 10: TIMING stands already, in slot 0";
    fails(&folder, "replay v t", 4, NOTHING, differs);
    let mut trace = folder.read("t");
    trace.push(9);
    folder.write("t", &trace);
    let at = trace.len() - 1;
    let malformed = format!("t: record 3 at byte {at} is malformed");
    fails(&folder, "trace show t", 5, NOTHING, &malformed);
    let absent = "v: refused 35: the timing file has 22 bytes, not 64";
    fails(&folder, "timing show v", 1, &[("refusal", "35")], absent);
}

#[test]
fn a_file_that_is_held_is_told() {
    let folder = with_volume("json_busy");
    let held = File::open(folder.path("v")).unwrap();
    held.lock().unwrap();
    let busy = "v: busy: another command holds it";
    for line in ["check v -w 0", "put v TIMING -r -w 0", "rom list v -w 0"] {
        fails(&folder, line, 6, NOTHING, busy);
    }
}

/// Where standard output fails, no second object is begun behind what it has.
#[test]
fn a_failure_of_standard_output_is_no_object() {
    let folder = with_volume("json_full");
    folder.write("i", &sample());
    for line in ["trace show t", "rom list i", "rom extract i out", "list v"] {
        let ran = folder.shell(&format!("tfs {line} --json >/dev/full"));
        let message = "tfs: standard output: No space left on device (os error 28)\n";
        assert_eq!(ran.status, 3, "{line}");
        assert!(ran.err.ends_with(message), "{line}: {}", ran.err);
    }
}

#[test]
fn a_refusal_has_its_number_and_place() {
    let folder = with_volume("json_refusal");
    let mut image = folder.read("v");
    image[515] |= 0x40;
    folder.write("v", &image);
    let mends = "v: refused 7: block 6 is marked used and no file has it (tfs mend helps)";
    let placed = [("refusal", "7"), ("place", "6")];
    fails(&folder, "check v", 1, &placed, mends);
    image[3] = 0;
    folder.write("v", &image);
    let magic = "v: refused 2: the magic number is 3584, not 3745";
    fails(&folder, "check v", 1, &[("refusal", "2")], magic);
}

#[test]
fn content_is_not_mixed_with_facts() {
    let folder = with_volume("json_mixed");
    let why = "get: --json may be mixed with the content on a stream; give a plain HOSTFILE";
    folder.shell("mkfifo pipe").granted();
    for stream in [
        "-",
        "/dev/stdout",
        "/dev/stderr",
        "/dev/fd/1",
        "/proc/self/fd/1",
        "/dev/null",
        "pipe",
    ] {
        let line = format!("get v TIMING {stream} --record u");
        fails(&folder, &line, 2, NOTHING, why);
    }
    assert_eq!(folder.names(), ["TIMING", "pipe", "t", "v"]);
    let ran = folder.shell("tfs get v TIMING /dev/fd/3 -j 3>>out 2>&1 >/dev/null");
    assert_eq!(
        (ran.status, ran.out),
        (2, format!("tfs: {why}\n").into_bytes())
    );
    assert!(folder.read("out").is_empty());
}

/// What was skipped is told with what was extracted, and why that is a failure.
#[test]
fn an_extraction_in_part_is_one_object() {
    let folder = Folder::new("json_extract");
    folder.write("i", &sample());
    let ran = folder.tfs("rom extract i out --json");
    let lines = "skipped tty: char 5,1\nskipped pipe: fifo\n";
    let message = "out: extracted but for 2 entries";
    let told = format!("{lines}tfs: {message}\n");
    assert_eq!((ran.status, ran.err), (7, told));
    let extracted = r#""extracted":["boot.cfg","bin","bin/run","bin/low","to","again"]"#;
    let skipped = r#""skipped":[{"path":"tty","why":"char 5,1"},{"path":"pipe","why":"fifo"}]"#;
    let error = format!(r#""error":{{"status":7,"message":"{message}"}}"#);
    let printed = String::from_utf8(ran.out).unwrap();
    let head = r#"{"tfs":1,"command":"rom extract","#;
    assert_eq!(printed, format!("{head}{extracted},{skipped},{error}}}\n"));
    accepted(&printed);
    let exists = "out: exists already";
    fails(&folder, "rom extract i out", 3, NOTHING, exists);
}

/// A slash within a name is told apart from one between names.
#[test]
fn a_skipped_path_can_be_given_back() {
    let folder = Folder::new("json_extract_path");
    folder.write("i", &image(&[file(b"a/b", b"1")]));
    let ran = folder.tfs("rom extract i out --json");
    let printed = String::from_utf8(ran.out).unwrap();
    let skipped = r#""skipped":[{"path":"a\\x2fb","why":"a slash in the name"}]"#;
    assert!(printed.contains(skipped), "{printed}");
    assert_eq!(
        folder.run(&["rom", "cat", "i", "-x", "a\\x2fb"]).text(),
        "1"
    );
}
