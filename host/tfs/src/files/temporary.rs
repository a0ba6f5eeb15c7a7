//! Temporary files and folders, named after what they become and held by the command that fills them.
//!
//! One that can be locked has lost its maker, and is removed by the next command that comes by.

use super::{folder_of, same, unmade};
use std::ffi::{OsStr, OsString};
use std::fs::{self, File, Metadata, OpenOptions};
use std::io::{self, ErrorKind};
use std::os::unix::ffi::{OsStrExt, OsStringExt};
use std::os::unix::fs::OpenOptionsExt;
use std::path::{Path, PathBuf};

/// How much of a name a temporary name takes over, so that it is none too long for the host.
const LONGEST_NAME: usize = 200;

/// A temporary file or folder. What stands at its path goes when this goes.
pub struct Temporary {
    pub path: PathBuf,
    /// The file or folder, locked.
    pub file: File,
}

impl Temporary {
    /// Makes a temporary file in the folder of the file that it becomes.
    pub fn file(becomes: &Path, mode: u32) -> io::Result<Self> {
        remove_dead_files(becomes);
        Self::beside(becomes, |place| new_file(place, mode))
    }

    /// Makes a temporary folder in the folder of the one that it becomes.
    pub fn folder(becomes: &Path) -> io::Result<Self> {
        remove_dead(becomes, Metadata::is_dir);
        Self::beside(becomes, |place| {
            fs::create_dir(place)?;
            // Where another command has removed it already, it has another name next.
            File::open(place).map_err(|_| ErrorKind::AlreadyExists.into())
        })
    }

    fn beside(becomes: &Path, make: impl Fn(&Path) -> io::Result<File>) -> io::Result<Self> {
        let mut start = start_of(becomes);
        start.push(format!("{}-", std::process::id()));
        for number in 0..100 {
            let mut name = start.clone();
            name.push(number.to_string());
            let path = folder_of(becomes).join(name);
            match make(&path) {
                Err(error) if error.kind() == ErrorKind::AlreadyExists => {}
                Err(error) => return Err(unmade(becomes, error)),
                Ok(file) if keep(&path, &file) => return Ok(Self { path, file }),
                Ok(_) => {}
            }
        }
        Err(io::Error::other("there is no name for a temporary file"))
    }

    /// Gives it its name, also where a file stands, and asks the folder to keep that.
    pub fn rename(self, path: &Path) -> io::Result<()> {
        fs::rename(&self.path, path)?;
        flush_folder(path);
        Ok(())
    }

    /// Gives a file its name by a `link` where nothing stands.
    pub fn rename_new(
        &self,
        path: &Path,
        link: impl FnOnce(&Path, &Path) -> io::Result<()>,
    ) -> io::Result<()> {
        match link(&self.path, path) {
            Err(error) if error.kind() == ErrorKind::AlreadyExists => return Err(error),
            // The host has no hard links: an empty file takes the name first.
            Err(_) => {
                new_file(path, 0o600)?;
                self.rename_over(path)?;
            }
            Ok(()) => {}
        }
        flush_folder(path);
        Ok(())
    }

    /// Gives a folder its name where nothing stands.
    pub fn rename_folder(self, path: &Path) -> io::Result<()> {
        fs::create_dir(path)?;
        self.rename_over(path)?;
        flush_folder(path);
        Ok(())
    }

    /// Takes the place of an empty file or folder that this command has just made.
    fn rename_over(&self, path: &Path) -> io::Result<()> {
        let renamed = fs::rename(&self.path, path);
        if renamed.is_err() {
            let _ = fs::remove_dir(path).or_else(|_| fs::remove_file(path));
        }
        renamed
    }
}

impl Drop for Temporary {
    fn drop(&mut self) {
        // After a rename nothing stands there, and both fail.
        remove(&self.path);
    }
}

/// Locks a new file or folder; tells whether it still stands, or was taken for a dead one before.
fn keep(path: &Path, file: &File) -> bool {
    // Where the host knows no locks, no command takes it for dead either.
    let _ = file.lock();
    stands_as(path, file)
}

fn stands_as(path: &Path, file: &File) -> bool {
    let found = fs::symlink_metadata(path).and_then(|now| Ok((now, file.metadata()?)));
    found.is_ok_and(|(now, opened)| same(&now, &opened))
}

/// Removes what killed commands have left of what was to become this file or folder: what is of that
/// kind.
fn remove_dead(becomes: &Path, is_kind: fn(&Metadata) -> bool) {
    let start = start_of(becomes);
    let Ok(entries) = fs::read_dir(folder_of(becomes)) else {
        return;
    };
    for entry in entries.flatten() {
        if is_temporary(&entry.file_name(), &start)
            && entry.metadata().is_ok_and(|found| is_kind(&found))
        {
            remove_if_dead(&entry.path(), becomes);
        }
    }
}

/// Removes what killed commands have left of a file.
pub fn remove_dead_files(becomes: &Path) {
    remove_dead(becomes, Metadata::is_file);
}

fn remove(path: &Path) {
    let _ = fs::remove_file(path).or_else(|_| fs::remove_dir_all(path));
}

/// The start of the temporary names of a file or folder.
fn start_of(becomes: &Path) -> OsString {
    let name = becomes.file_name().unwrap_or_default().as_bytes();
    let kept = &name[..name.len().min(LONGEST_NAME)];
    OsString::from_vec([b".", kept, b".tfs-"].concat())
}

/// Tells whether a name has a start and then two numbers.
fn is_temporary(name: &OsStr, start: &OsStr) -> bool {
    let Some(numbers) = name.as_bytes().strip_prefix(start.as_bytes()) else {
        return false;
    };
    let numbers: Vec<&[u8]> = numbers.split(|&byte| byte == b'-').collect();
    let is_number = |word: &&[u8]| !word.is_empty() && word.iter().all(u8::is_ascii_digit);
    numbers.len() == 2 && numbers.iter().all(is_number)
}

/// Removes a temporary file or folder that nobody fills any more. A second name of the file that it
/// became is what a command has left that was killed before it could remove it.
fn remove_if_dead(path: &Path, became: &Path) {
    let Ok(found) = fs::symlink_metadata(path) else {
        return;
    };
    if fs::symlink_metadata(became).is_ok_and(|file| same(&file, &found)) {
        return remove(path);
    }
    let Ok(file) = File::open(path) else {
        return;
    };
    // It stays locked until it is gone: its maker may be about to lock it.
    if file.try_lock().is_ok() && stands_as(path, &file) {
        remove(path);
    }
}

/// Asks the folder of a file to keep its name.
fn flush_folder(path: &Path) {
    // Some host filesystems cannot flush a folder; the rename is done in any case.
    let _ = File::open(folder_of(path)).and_then(|folder| folder.sync_all());
}

/// Makes a file where nothing stands.
pub fn new_file(path: &Path, mode: u32) -> io::Result<File> {
    OpenOptions::new()
        .write(true)
        .create_new(true)
        .mode(mode)
        .open(path)
}

#[cfg(test)]
mod tests;
