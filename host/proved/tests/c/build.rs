//! A build before the archives are there says what to run.

use crate::compiler::{archive, folder, run, LIBRARIES};
use std::fs;
use std::path::{Path, PathBuf};
use std::process::Command;

/// A crate with the build script of this one, at its place beside the folder of the archives.
fn copied(test: &str) -> PathBuf {
    let here = folder(test).join("host/proved");
    fs::create_dir_all(here.join("src")).expect("a folder");
    let script = Path::new(env!("CARGO_MANIFEST_DIR")).join("build.rs");
    fs::copy(script, here.join("build.rs")).expect("a build script");
    let manifest =
        "[package]\nname = \"proved\"\nversion = \"0.1.0\"\nedition = \"2021\"\n[workspace]\n";
    fs::write(here.join("Cargo.toml"), manifest).expect("a manifest");
    fs::write(here.join("src/lib.rs"), "").expect("a library");
    fs::create_dir_all(here.join("../../target/staticlib")).expect("a folder");
    here
}

/// The lines of a build that tell of an archive that is missing; none where it succeeds.
fn missing(here: &Path) -> Vec<String> {
    let mut cargo = Command::new(env!("CARGO"));
    let output = run(cargo
        .args(["build", "--offline"])
        .current_dir(here)
        .env_remove("CARGO_TARGET_DIR"));
    let messages = String::from_utf8_lossy(&output.stderr);
    let told = messages
        .lines()
        .filter_map(|line| line.split_once("target/staticlib/"));
    let told: Vec<String> = told.map(|(_, told)| told.to_string()).collect();
    assert_eq!(output.status.success(), told.is_empty(), "{messages}");
    told
}

/// The line of a library.
fn line(library: &str) -> String {
    format!("lib{library}.a is missing; make it with: host/build.sh {library}")
}

#[test]
fn names_every_archive_that_is_missing() {
    assert_eq!(missing(&copied("none")), LIBRARIES.map(line));
}

#[test]
fn names_only_those_and_succeeds_once_they_are_there() {
    let here = copied("some");
    let put = |library: &str| {
        let to = here.join(format!("../../target/staticlib/lib{library}.a"));
        fs::copy(archive(library), to).expect("an archive");
    };
    ["timing_c", "tfs_c"].into_iter().for_each(put);
    assert_eq!(missing(&here), ["tfs_trace_c", "romfs_c"].map(line));
    ["tfs_trace_c", "romfs_c"].into_iter().for_each(put);
    assert_eq!(missing(&here), [""; 0]);
}
