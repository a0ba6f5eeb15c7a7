//! Host files: read, printed to, written whole or not at all, and held against other commands.

mod copy;
mod lock;
mod place;
mod standard;
mod stream;
mod temporary;

use crate::failure::Failure;
use std::fs::{self, File, Metadata};
use std::io::{self, ErrorKind, Read, Write};
use std::os::unix::ffi::OsStrExt;
use std::os::unix::fs::{FileTypeExt, MetadataExt};
use std::path::{Path, PathBuf};

pub use copy::copy_rest;
pub use lock::{hold, wait_at_most, Claim, Hold, LONGEST_WAIT};
pub use place::{fill_new, make_folder, prepare, replace_by, write_by, write_if, Prepared};
pub use standard::output;
pub use stream::Stream;
pub use temporary::remove_dead_files;

/// The name of standard input and output where a host file is asked for.
pub const STANDARD: &str = "-";

/// Reads a file.
pub fn read(path: &Path) -> Result<Vec<u8>, Failure> {
    standard::is_open(path)?;
    process::tried(|| fs::read(path)).map_err(|error| Failure::host(path, error))
}

/// Reads a file or standard input, and no more than the first `most` bytes of it.
pub fn read_at_most(path: &Path, most: usize) -> Result<Vec<u8>, Failure> {
    standard::is_open(path)?;
    let mut bytes = Vec::new();
    let read = if path == Path::new(STANDARD) {
        process::tried(|| io::stdin().take(most as u64).read_to_end(&mut bytes))
    } else {
        let read = |file: File| process::tried(|| file.take(most as u64).read_to_end(&mut bytes));
        File::open(path).and_then(read)
    };
    read.map_err(|error| Failure::host(path, error))?;
    Ok(bytes)
}

/// Reads a file or standard input.
pub fn read_or_standard(path: &Path) -> Result<Vec<u8>, Failure> {
    read_at_most(path, usize::MAX)
}

/// Reads on in an open file until so many bytes are there, or it ends.
pub fn read_on(file: &File, bytes: &mut Vec<u8>, most: usize) -> io::Result<()> {
    let left = most.saturating_sub(bytes.len()) as u64;
    let found = file.metadata()?;
    if found.is_file() {
        let there = found.len().saturating_sub(bytes.len() as u64);
        process::tried(|| bytes.try_reserve_exact(there.min(left) as usize))?;
    }
    process::tried(|| file.take(left).read_to_end(bytes))?;
    Ok(())
}

/// Fails where so much memory cannot be had for what a file holds.
pub fn room_for(path: &Path, bytes: usize) -> Result<(), Failure> {
    let room = process::tried(|| Vec::<u8>::new().try_reserve_exact(bytes));
    room.map_err(|error| Failure::host(path, io::Error::from(error)))
}

/// Writes to standard output. It may be closed where there is nothing to write.
pub fn print(bytes: &[u8]) -> Result<(), Failure> {
    if bytes.is_empty() {
        return Ok(());
    }
    print_to(output()?, bytes).map_err(Failure::output)
}

/// Writes to standard error what is told of content on standard output.
pub fn print_beside(bytes: &[u8]) -> Result<(), Failure> {
    let printed = print_to(io::stderr().lock(), bytes);
    printed.map_err(|error| Failure::stream(Path::new("standard error"), error))
}

fn print_to(mut out: impl Write, bytes: &[u8]) -> io::Result<()> {
    out.write_all(bytes)?;
    out.flush()
}

/// Fails where two paths lead to one file, there or not yet.
pub fn apart(path: &Path, other: &Path, what: &str) -> Result<(), Failure> {
    let found = fs::metadata(path).and_then(|one| Ok(same(&one, &fs::metadata(other)?)));
    let one = found.unwrap_or_else(|_| real(path).is_some_and(|path| real(other) == Some(path)));
    match one {
        true => Err(Failure::host(path, format!("is {what} itself"))),
        false => Ok(()),
    }
}

/// The path of a file without links, or the one that it would have.
fn real(path: &Path) -> Option<PathBuf> {
    let folder = || {
        Some(
            fs::canonicalize(folder_of(path))
                .ok()?
                .join(path.file_name()?),
        )
    };
    fs::canonicalize(path).ok().or_else(folder)
}

/// Tells whether two files are one.
fn same(file: &Metadata, other: &Metadata) -> bool {
    (file.dev(), file.ino()) == (other.dev(), other.ino())
}

/// Tells whether a path leads to a block device.
pub fn is_block_device(path: &Path) -> bool {
    fs::metadata(path).is_ok_and(|found| found.file_type().is_block_device())
}

/// Fails where no file could have a path, such as "" or "folder/".
fn named(path: &Path) -> io::Result<()> {
    let written = path.as_os_str().as_bytes();
    let name = path.file_name();
    match name.is_some_and(|name| written.ends_with(name.as_bytes())) {
        true => Ok(()),
        false => Err(io::Error::other("not the name of a file")),
    }
}

/// What a file is that is not a plain one.
fn kind(found: &Metadata) -> &'static str {
    let kind = found.file_type();
    if kind.is_dir() {
        "a folder"
    } else if kind.is_char_device() {
        "a character device"
    } else if kind.is_fifo() {
        "a pipe"
    } else {
        "a socket"
    }
}

/// Why a file cannot be made, which may be that its folder is missing.
fn unmade(path: &Path, error: io::Error) -> io::Error {
    match error.kind() {
        ErrorKind::NotFound => {
            let folder = folder_of(path).display();
            io::Error::other(format!("there is no folder {folder}"))
        }
        _ => error,
    }
}

fn folder_of(path: &Path) -> &Path {
    match path.parent() {
        Some(folder) if folder != Path::new("") => folder,
        _ => Path::new("."),
    }
}
