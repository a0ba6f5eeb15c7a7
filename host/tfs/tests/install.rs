//! The script that installs the tool, the libraries and the headers.

mod bench;

use bench::Folder;
use std::fs;
use std::os::unix::fs::PermissionsExt;
use std::path::Path;
use std::process::{Command, Output};

const ROOT: &str = concat!(env!("CARGO_MANIFEST_DIR"), "/../..");
const TOOL: &str = env!("CARGO_BIN_EXE_tfs");
const LIBRARIES: [&str; 4] = ["tfs_c", "tfs_trace_c", "timing_c", "romfs_c"];

/// Runs the script for a prefix, with a tool, in a folder that stands before every path.
fn install(prefix: &str, tool: &str, before: &Path) -> Output {
    let mut script = Command::new(format!("{ROOT}/host/install.sh"));
    script.arg(prefix).env("TFS", tool).env("DESTDIR", before);
    script.output().unwrap()
}

fn text(bytes: Vec<u8>) -> String {
    String::from_utf8(bytes).unwrap()
}

/// The libraries and headers of the repository, each with the place where it is installed.
fn sources() -> Vec<(String, String)> {
    let library = |name: &str| {
        (
            format!("target/staticlib/lib{name}.a"),
            format!("lib/lib{name}.a"),
        )
    };
    let headers = fs::read_dir(format!("{ROOT}/include")).unwrap();
    let names = headers.map(|header| header.unwrap().file_name().into_string().unwrap());
    let headers = names.map(|name| (format!("include/{name}"), format!("include/{name}")));
    LIBRARIES.map(library).into_iter().chain(headers).collect()
}

#[test]
fn everything_is_installed_and_told() {
    let folder = Folder::new("install");
    let ran = install("/opt", TOOL, &folder.path(""));
    assert_eq!(text(ran.stderr), "");
    assert!(ran.status.success());
    let told = text(ran.stdout);
    let sources = sources();
    for (source, place) in &sources {
        let same =
            fs::read(format!("{ROOT}/{source}")).unwrap() == folder.read(&format!("opt/{place}"));
        assert!(same, "{place}");
    }
    let made = [
        "bin/tfs",
        "share/man/man1/tfs.1",
        "share/bash-completion/completions/tfs",
    ];
    for place in sources.iter().map(|(_, place)| place.as_str()).chain(made) {
        let path = folder.path(&format!("opt/{place}"));
        assert!(path.is_file(), "{place}");
        assert!(told.lines().any(|line| Path::new(line) == path), "{place}");
    }
    assert_eq!(told.lines().count(), sources.len() + made.len());
}

#[test]
fn the_page_and_the_completions_are_the_tools_own() {
    let folder = Folder::new("install_made");
    assert!(install("/opt", TOOL, &folder.path("")).status.success());
    let tool = folder.path("opt/bin/tfs");
    assert_eq!(tool.metadata().unwrap().permissions().mode() & 0o777, 0o755);
    for (words, place) in [
        (&["man"][..], "share/man/man1/tfs.1"),
        (
            &["completions", "bash"],
            "share/bash-completion/completions/tfs",
        ),
    ] {
        let printed = Command::new(&tool).args(words).output().unwrap().stdout;
        assert!(printed == folder.read(&format!("opt/{place}")), "{place}");
    }
}

#[test]
fn where_the_tool_is_missing_nothing_is_installed() {
    let folder = Folder::new("install_missing");
    let ran = install("/opt", "/nowhere/tfs", &folder.path(""));
    let told = "install: /nowhere/tfs is missing; it is made by: cd host && cargo build --release --offline -p tfs\n";
    assert_eq!(
        (text(ran.stderr).as_str(), ran.status.code()),
        (told, Some(1))
    );
    assert!(folder.names().is_empty());
}

#[test]
fn a_prefix_is_an_absolute_path() {
    let folder = Folder::new("install_prefix");
    let ran = install("opt", TOOL, &folder.path(""));
    let told = "install: opt: PREFIX must be an absolute path\n";
    assert_eq!(
        (text(ran.stderr).as_str(), ran.status.code()),
        (told, Some(2))
    );
    assert!(folder.names().is_empty());
}
