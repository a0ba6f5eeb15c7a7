//! Files and folders written whole or not at all.
//!
//! What is written goes to a temporary file or folder beside its place, and is then given its name.
//! A failure on the way removes it. A block device is never replaced by a file.

use super::lock::{hold, Hold};
use super::temporary::{new_file, Temporary};
use super::{kind, named};
use crate::failure::Failure;
use std::fs::{self, File, Metadata};
use std::io::{self, ErrorKind, Write};
use std::os::unix::fs::{fchown, FileTypeExt, MetadataExt};
use std::path::{Path, PathBuf};

/// Why a device is not written whole.
const DEVICE: &str = "is a block device; write a plain file and copy it there";

const EXISTS: &str = "exists already (--force replaces it)";

/// Writes a file; in place of one that stands there only if forced.
pub fn write_if(path: &Path, bytes: &[u8], force: bool) -> Result<(), Failure> {
    write_by(path, force, |mut file| file.write_all(bytes))
}

/// The same with what `fill` puts into it.
pub fn write_by(
    path: &Path,
    force: bool,
    fill: impl FnOnce(&File) -> io::Result<()>,
) -> Result<(), Failure> {
    prepare(path, force, fill)?.put_in_place()
}

/// Writes a file beside its place, with what `fill` puts into it. Where one stands there, this
/// fails; forced, that one is held until it is replaced, and its permissions are kept.
pub fn prepare(
    path: &Path,
    force: bool,
    fill: impl FnOnce(&File) -> io::Result<()>,
) -> Result<Prepared, Failure> {
    may_write(path, force)?;
    if force && stands(path) {
        let held = hold(path, Hold::Alone)?;
        let how = How::Over(Some(held));
        return Ok(Prepared {
            how,
            ..replace_by(path, fill)?
        });
    }
    let temporary = new(path, fill).map_err(|error| Failure::host(path, error))?;
    Ok(Prepared {
        path: path.to_path_buf(),
        place: path.to_path_buf(),
        temporary,
        how: How::New { force },
    })
}

/// Fails where it is known before that a file cannot be put in its place.
fn may_write(path: &Path, force: bool) -> Result<(), Failure> {
    if !stands(path) {
        return Ok(());
    }
    replaceable(path).map_err(|error| Failure::host(path, error))?;
    match force {
        true => Ok(()),
        false => Err(Failure::host(path, EXISTS)),
    }
}

/// Writes a file beside the one that it is to replace, which this command holds alone: so it is one
/// that may be written to.
pub fn replace_by(
    path: &Path,
    fill: impl FnOnce(&File) -> io::Result<()>,
) -> Result<Prepared, Failure> {
    let prepared = replacement(path, fill);
    let (place, temporary) = prepared.map_err(|error| Failure::host(path, error))?;
    Ok(Prepared {
        path: path.to_path_buf(),
        place,
        temporary,
        how: How::Over(None),
    })
}

/// A file that is written and flushed beside its place.
pub struct Prepared {
    path: PathBuf,
    /// The path without links.
    place: PathBuf,
    temporary: Temporary,
    how: How,
}

/// How a file is put in its place.
enum How {
    /// Nothing has stood there; forced, what is there now is replaced.
    New { force: bool },
    /// Over a file, which this holds if nobody else does.
    Over(Option<File>),
}

impl Prepared {
    /// Puts the file in its place.
    pub fn put_in_place(self) -> Result<(), Failure> {
        let failed = |error| Failure::host(&self.path, error);
        let force = match self.how {
            How::Over(_held) => return self.temporary.rename(&self.place).map_err(failed),
            How::New { force } => force,
        };
        match put_new(&self.temporary, &self.place) {
            Err(error) if error.kind() != ErrorKind::AlreadyExists => Err(failed(error)),
            // Another command has made it meanwhile.
            Err(_) if force => {
                replaceable(&self.path).map_err(failed)?;
                let _held = hold(&self.path, Hold::Alone)?;
                self.temporary.rename(&self.place).map_err(failed)
            }
            Err(_) => Err(Failure::host(&self.path, EXISTS)),
            Ok(()) => Ok(()),
        }
    }
}

/// Makes a folder with what `fill` puts into it, where nothing stands.
pub fn make_folder<T>(
    path: &Path,
    fill: impl FnOnce(&Path) -> Result<T, Failure>,
) -> Result<T, Failure> {
    let exists = || Failure::host(path, "exists already");
    if stands(path) {
        return Err(exists());
    }
    let failed = |error: io::Error| match error.kind() {
        ErrorKind::AlreadyExists => exists(),
        _ => Failure::host(path, error),
    };
    let temporary = Temporary::folder(path).map_err(failed)?;
    let filled = fill(&temporary.path)?;
    temporary.rename_folder(path).map_err(failed)?;
    Ok(filled)
}

/// Writes a file inside a folder of `make_folder`, where nothing may stand.
pub fn fill_new(path: &Path, bytes: &[u8], mode: u32) -> io::Result<()> {
    new_file(path, mode)?.write_all(bytes)
}

fn stands(path: &Path) -> bool {
    fs::symlink_metadata(path).is_ok()
}

/// Writes a file beside its place, where nothing stands.
fn new(path: &Path, fill: impl FnOnce(&File) -> io::Result<()>) -> io::Result<Temporary> {
    named(path)?;
    let temporary = Temporary::file(path, 0o666)?;
    fill(&temporary.file)?;
    temporary.file.sync_all()?;
    Ok(temporary)
}

fn put_new(temporary: &Temporary, path: &Path) -> io::Result<()> {
    temporary.rename_new(path, |from, to| fs::hard_link(from, to))
}

/// Writes what is to replace a file; a symbolic link goes on leading to it.
fn replacement(
    path: &Path,
    fill: impl FnOnce(&File) -> io::Result<()>,
) -> io::Result<(PathBuf, Temporary)> {
    let path = fs::canonicalize(path)?;
    let old = replaceable(&path)?;
    let temporary = Temporary::file(&path, 0o600)?;
    fill(&temporary.file)?;
    keep_rights(&temporary.file, &old)?;
    temporary.file.sync_all()?;
    Ok((path, temporary))
}

/// What is known of a file that may be replaced.
fn replaceable(path: &Path) -> io::Result<Metadata> {
    let old = fs::metadata(path).map_err(|error| match error.kind() {
        ErrorKind::NotFound if path.is_symlink() => {
            io::Error::other("is a symbolic link that leads to nothing")
        }
        _ => error,
    })?;
    if old.file_type().is_block_device() {
        return Err(io::Error::other(DEVICE));
    }
    match old.is_file() {
        true => Ok(old),
        false => {
            let why = format!("is {}, which cannot be replaced", kind(&old));
            Err(io::Error::other(why))
        }
    }
}

/// Gives a new file the permissions of an old one, and its owner where this user may do so.
fn keep_rights(file: &File, old: &Metadata) -> io::Result<()> {
    let _ = fchown(file, Some(old.uid()), Some(old.gid()));
    file.set_permissions(old.permissions())
}

#[cfg(test)]
mod tests;
