//! The completions, asked by bash itself.

mod bench;

use bench::Folder;
use std::process::Command;

/// What is offered for the last of some words; none where there is no bash.
fn offered(folder: &Folder, words: &[&str]) -> Option<Vec<String>> {
    folder.write("completions", &folder.tfs("completions bash").granted());
    let script = "source ./completions; COMP_WORDS=(\"$@\"); COMP_CWORD=$(($# - 1)); _tfs
        printf '%s\\n' \"${COMPREPLY[@]}\"";
    let bash = Command::new("bash")
        .current_dir(folder.path(""))
        .args(["--norc", "-c", script, "bash", "tfs"])
        .args(words)
        .output()
        .ok()?;
    assert!(
        bash.stderr.is_empty(),
        "{}",
        String::from_utf8_lossy(&bash.stderr)
    );
    let lines = String::from_utf8(bash.stdout).unwrap();
    let mut lines: Vec<String> = lines.lines().map(str::to_string).collect();
    lines.retain(|line| !line.is_empty());
    lines.sort();
    Some(lines)
}

fn offers(folder: &Folder, line: &str, expected: &[&str]) {
    let words: Vec<&str> = line.split(' ').collect();
    let Some(offered) = offered(folder, &words) else {
        return;
    };
    assert_eq!(offered, expected, "{line}");
}

#[test]
fn commands_are_completed() {
    let folder = Folder::new("complete_commands");
    offers(&folder, "m", &["make", "man", "map", "mend"]);
    offers(&folder, "r", &["remove", "replay", "rom"]);
    offers(&folder, "--", &["--help", "--version"]);
    offers(&folder, "rom ", &["cat", "check", "extract", "list"]);
    offers(&folder, "timing s", &["show", "store"]);
    offers(&folder, "mount ", &[]);
}

#[test]
fn a_command_is_offered_its_own_options() {
    let folder = Folder::new("complete_options");
    offers(
        &folder,
        "check --",
        &["--all", "--help", "--json", "--wait"],
    );
    offers(&folder, "put v f --r", &["--record", "--replace"]);
    offers(&folder, "timing boot v --b", &["--board"]);
    let cat = ["--escaped", "--help", "--wait", "-h", "-w", "-x"];
    offers(&folder, "rom cat -", &cat);
    offers(&folder, "trace make --j", &[]);
    offers(&folder, "put -- --n", &[]);
}

#[test]
fn files_are_offered_where_a_file_stands() {
    let folder = Folder::new("complete_files");
    folder.write("pump one.img", b"");
    folder.write("pump.img", b"");
    let files = ["pump one.img", "pump.img"];
    for line in [
        "check p",
        "check v w p",
        "map v --svg p",
        "put v p",
        "put --name NAME v p",
        "put -n NAME v p",
        "put -r v p",
        "free v --record p",
        "free v -R p",
        "free v --record = p",
        "replay v t --out p",
        "get v NAME p",
        "rom extract i p",
        "put -- -v p",
        "put v f p",
        "get v NAME --to p",
        "extract v p",
        "build p",
    ] {
        offers(&folder, line, &files);
    }
    for line in [
        "get v p",
        "make v --size p",
        "make v --size = p",
        "check v --wait p",
        "list v p",
        "put v --name p",
        "put v f --at p",
        "create v p",
        "remove v NAME p",
        "help p",
    ] {
        let offered = offered(&folder, &line.split(' ').collect::<Vec<_>>());
        let none = offered.is_none_or(|offered| !offered.contains(&files[1].to_string()));
        assert!(none, "{line}");
    }
}

#[test]
fn words_of_a_choice_are_offered() {
    let folder = Folder::new("complete_words");
    offers(&folder, "dump v ", &["header", "inode", "map", "slot"]);
    offers(&folder, "completions ", &["bash"]);
    offers(&folder, "help op", &[]);
    offers(&folder, "help rom ", &["cat", "check", "extract", "list"]);
    offers(&folder, "help list ", &[]);
    offers(&folder, "help rom list ", &[]);
    offers(&folder, "help rom e", &["extract"]);
}

#[test]
fn another_shell_is_refused() {
    let folder = Folder::new("complete_shell");
    folder.refused(
        "completions fish",
        2,
        "completions: fish: only bash is known",
    );
}
