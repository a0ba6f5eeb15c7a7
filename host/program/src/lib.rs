//! The proved program `replay`, run over pairs of files.
//!
//! It is given the names of an image file and a trace file and prints one line; [`owed`] is the line
//! that the second program gives for the same bytes.

#![forbid(unsafe_code)]
#![warn(missing_docs)]

use std::ffi::OsStr;
use std::fs;
use std::path::{Path, PathBuf};
use std::process::Command;

use reference::trace::{replay, Replayed};

/// The number of bytes that each file may have.
pub const LONGEST: usize = 65_536;

/// The line for any other failure.
pub const TROUBLE: &str = "4\n";

/// Where the program is.
pub fn path() -> PathBuf {
    let path = Path::new(env!("CARGO_MANIFEST_DIR")).join("../../target/bin/replay");
    let made = "target/bin/replay is missing; it is made by: host/build.sh replay";
    assert!(path.is_file(), "{made}");
    path
}

/// The line that is owed for the bytes of two files.
pub fn owed(image: &[u8], trace: &[u8]) -> String {
    if image.len() > LONGEST || trace.len() > LONGEST {
        return TROUBLE.to_string();
    }
    match replay(&mut image.to_vec(), trace) {
        Ok(Replayed::All(count)) => format!("0 {count}\n"),
        Ok(Replayed::Malformed(number)) => format!("1 {number}\n"),
        Ok(Replayed::Differs(number)) => format!("2 {number}\n"),
        Err(refusal) => format!("3 {} {}\n", refusal.number, refusal.place),
    }
}

/// Runs a command of the program to its end and gives what it prints.
pub fn printed(command: &mut Command) -> String {
    let output = command.output().expect("the program is started");
    assert!(output.status.code().is_some(), "{}", output.status);
    String::from_utf8(output.stdout).expect("a line of ASCII")
}

/// A folder that goes when the test ends, in which the program is run.
pub struct Folder(PathBuf);

impl Folder {
    /// Makes an empty folder; the name must be of one test alone.
    pub fn new(name: &str) -> Self {
        let process = std::process::id();
        let path = std::env::temp_dir().join(format!("replay-{process}-{name}"));
        let _ = fs::remove_dir_all(&path);
        fs::create_dir_all(&path).expect("a new folder");
        Self(path)
    }

    /// The path of a file.
    pub fn path(&self, name: impl AsRef<OsStr>) -> PathBuf {
        self.0.join(name.as_ref())
    }

    /// Writes a file.
    pub fn write(&self, name: impl AsRef<OsStr>, bytes: &[u8]) {
        fs::write(self.path(name), bytes).expect("a file is written");
    }

    /// What the program prints with these words.
    pub fn run(&self, words: &[impl AsRef<OsStr>]) -> String {
        printed(Command::new(path()).args(words).current_dir(&self.0))
    }

    /// What the program prints for two files of these bytes, which must stay.
    pub fn run_on(&self, image: &[u8], trace: &[u8]) -> String {
        self.write("image", image);
        self.write("trace", trace);
        let line = self.run(&["image", "trace"]);
        let read = |name| fs::read(self.path(name)).expect("a file is read");
        assert!(read("image") == image && read("trace") == trace);
        assert_eq!(fs::read_dir(&self.0).expect("a folder").count(), 2);
        line
    }
}

impl Drop for Folder {
    fn drop(&mut self) {
        let _ = fs::remove_dir_all(&self.0);
    }
}
