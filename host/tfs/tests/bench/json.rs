//! Commands whose output programs read.

use super::Folder;
use std::process::Command;

pub const NOTHING: &[(&str, &str)] = &[];

/// A volume "v" with a file of 22 bytes, its content in "TIMING", and a trace of that put.
pub fn with_volume(name: &str) -> Folder {
    let folder = Folder::new(name);
    folder.tfs("make v --size 64K --label PUMP").granted();
    folder.write("TIMING", &[b'7'; 22]);
    folder.tfs("put v TIMING --record t").granted();
    folder
}

/// Runs a command that must print this object, which another reader must accept.
pub fn prints(folder: &Folder, line: &str, members: &str) {
    let printed = folder.tfs(&format!("{line} --json")).text();
    let words: Vec<&str> = line.split(' ').collect();
    let two = ["rom", "timing", "trace"].contains(&words[0]);
    let command = words[..if two { 2 } else { 1 }].join(" ");
    let object = format!("{{\"tfs\":1,\"command\":\"{command}\",{members}}}\n");
    assert_eq!(printed, object, "{line}");
    accepted(&printed);
}

/// Fails where Python is there and does not read a text as JSON.
pub fn accepted(text: &str) {
    let reader = "import json, sys; json.loads(sys.argv[1])";
    if let Ok(ran) = Command::new("python3").args(["-c", reader, text]).output() {
        assert!(ran.status.success(), "{text}");
    }
}

/// Runs a command that must fail so: the object on standard output, the line beside it, the status.
pub fn fails(folder: &Folder, line: &str, status: i32, more: &[(&str, &str)], message: &str) {
    let ran = folder.run(&line.split(' ').chain(["--json"]).collect::<Vec<_>>());
    assert_eq!(
        (ran.status, ran.err),
        (status, format!("tfs: {message}\n")),
        "{line}"
    );
    let printed = String::from_utf8(ran.out).unwrap();
    let more: String = more
        .iter()
        .map(|(name, value)| format!("\"{name}\":{value},"))
        .collect();
    let quoted = message.replace('\\', "\\\\").replace('"', "\\\"");
    let error = format!("\"error\":{{\"status\":{status},{more}\"message\":\"{quoted}\"}}}}\n");
    assert!(printed.ends_with(&error), "{line}: {printed}");
    assert_eq!(printed.lines().count(), 1, "{line}");
    accepted(&printed);
}
