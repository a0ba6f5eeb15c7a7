//! How far long work is, shown on a terminal alone.

mod bench;

use bench::Folder;
use std::fs::File;

/// Host files that are pipes: the first is held for over a second after the tool has opened it.
const SLOW: &str = "mkfifo a b; timeout 60 sh -c \
    \"exec 3>a; sleep 1.1; printf 1 >&3; exec 3>&-; printf 2 >b\" >/dev/null 2>&1 &";

fn with_volume(name: &str) -> Folder {
    let folder = Folder::new(name);
    folder.tfs("make v --size 64K").granted();
    folder
}

#[test]
fn nothing_is_drawn_where_standard_error_is_no_terminal() {
    let folder = with_volume("progress_pipe");
    let ran = folder.shell(&format!("{SLOW} tfs put v a b && tfs extract v out"));
    assert_eq!(ran.text(), "");
    assert_eq!(folder.read("out/b"), b"2");
}

#[test]
fn files_and_bytes_are_drawn_on_a_terminal_and_wiped() {
    let folder = with_volume("progress_terminal");
    if let Some(drawn) = folder.on_terminal(&format!("{SLOW} tfs put v a b")) {
        let first = "\rreading host files: 1 of 2 files, 0.0 KiB\x1b[K";
        assert!(drawn.starts_with(first), "{drawn:?}");
        assert!(drawn.ends_with("\r\x1b[K"), "{drawn:?}");
        assert_eq!(folder.tfs("get v b -").granted(), b"2");
    }
}

#[test]
fn a_wait_for_another_command_is_drawn_on_a_terminal_and_wiped() {
    let folder = with_volume("progress_waiting");
    let held = File::open(folder.path("v")).unwrap();
    held.lock().unwrap();
    if let Some(drawn) = folder.on_terminal("tfs check v --wait 2 || true") {
        let first = "\rwaiting for v, 1 s\x1b[K";
        assert!(drawn.starts_with(first), "{drawn:?}");
        let last = "\r\x1b[Ktfs: v: busy: another command has held it for 2 seconds\r\n";
        assert!(drawn.ends_with(last), "{drawn:?}");
    }
}
