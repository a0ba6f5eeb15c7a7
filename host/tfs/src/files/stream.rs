//! Paths that lead to a stream: it is written to, and never replaced.

use super::{print_to, STANDARD};
use crate::failure::Failure;
use std::fs::{self, FileType, OpenOptions};
use std::io::ErrorKind;
use std::os::unix::fs::FileTypeExt;
use std::path::{Path, PathBuf};

/// A stream that can be written to.
pub enum Stream {
    Output,
    Error,
    /// Another, by its path.
    Other(PathBuf),
}

impl Stream {
    /// The stream that a path leads to, if it leads to one: an open file of this program, also where
    /// that is a plain file, or a character device, a pipe or a socket.
    pub fn at(path: &Path) -> Option<Self> {
        let is = |names: &[&str]| names.iter().any(|name| path == Path::new(name));
        if is(&[STANDARD, "/dev/stdout", "/dev/fd/1", "/proc/self/fd/1"]) {
            return Some(Self::Output);
        }
        if is(&["/dev/stderr", "/dev/fd/2", "/proc/self/fd/2"]) {
            return Some(Self::Error);
        }
        let found = fs::metadata(path).map(|found| found.file_type());
        let streams = |kind: FileType| kind.is_char_device() || kind.is_fifo() || kind.is_socket();
        let is_other = is_open_file(path) || found.is_ok_and(streams);
        is_other.then(|| Self::Other(path.to_path_buf()))
    }

    /// Writes bytes behind what was written to the stream before.
    pub fn write(&self, bytes: &[u8]) -> Result<(), Failure> {
        match self {
            Self::Output => super::print(bytes),
            Self::Error => super::print_beside(bytes),
            Self::Other(path) => {
                let opened = OpenOptions::new().append(true).open(path);
                let written = opened.and_then(|file| print_to(file, bytes));
                written.map_err(|error| match error.kind() {
                    ErrorKind::NotFound if is_open_file(path) => {
                        Failure::host(path, "that descriptor is not open")
                    }
                    _ => Failure::stream(path, error),
                })
            }
        }
    }
}

/// Whether a path is that of an open file of this program, or would be.
fn is_open_file(path: &Path) -> bool {
    let mut folders = ["/dev/fd", "/proc/self/fd"].iter();
    folders.any(|folder| path.parent() == Some(Path::new(folder)))
}
