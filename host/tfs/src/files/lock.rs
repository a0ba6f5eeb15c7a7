//! Files held against other commands: readers share one, a command that changes it has it alone.

use super::{kind, named, same, unmade};
use crate::failure::Failure;
use crate::progress::Waiting;
use std::cell::Cell;
use std::fs::{self, File, Metadata, OpenOptions, TryLockError};
use std::io::{self, ErrorKind};
use std::os::unix::fs::FileTypeExt;
use std::path::{Path, PathBuf};
use std::sync::OnceLock;
use std::thread;
use std::time::{Duration, Instant};

/// The longest wait that can be asked for, in seconds.
pub const LONGEST_WAIT: u32 = 3600;

/// The wait where none is asked for.
const USUAL_WAIT: u32 = 10;

/// The pause between two attempts.
const PAUSE: Duration = Duration::from_millis(15);

static WAIT: OnceLock<u32> = OnceLock::new();

/// Sets how many seconds this command waits for a file that another holds; the first call counts.
pub fn wait_at_most(seconds: u32) {
    WAIT.get_or_init(|| seconds);
}

/// How a file is held.
#[derive(Clone, Copy, PartialEq)]
pub enum Hold {
    /// Together with other readers.
    Shared,
    /// By one command that changes it.
    Alone,
}

impl Hold {
    fn open(self, path: &Path) -> io::Result<File> {
        let write = self == Self::Alone;
        OpenOptions::new().read(true).write(write).open(path)
    }

    fn lock(self, file: &File) -> Result<(), TryLockError> {
        match self {
            Self::Shared => file.try_lock_shared(),
            Self::Alone => file.try_lock(),
        }
    }
}

/// Opens a file and holds it until it is closed; waits while other commands hold it.
pub fn hold(path: &Path, how: Hold) -> Result<File, Failure> {
    wait_for(path, how, || how.open(path))
}

fn wait_for(path: &Path, how: Hold, open: impl Fn() -> io::Result<File>) -> Result<File, Failure> {
    let (start, seconds) = (Instant::now(), *WAIT.get().unwrap_or(&USUAL_WAIT));
    let mut waiting = Waiting::new(path);
    loop {
        let held = open().and_then(|file| lock(path, how, file));
        match held.map_err(|error| Failure::host(path, error))? {
            Some(file) => return Ok(file),
            None if start.elapsed() >= Duration::from_secs(seconds.into()) => {
                return Err(Failure::Busy(path.to_path_buf(), seconds));
            }
            None => {
                waiting.show(start.elapsed());
                thread::sleep(PAUSE);
            }
        }
    }
}

/// Locks an open file, unless another command holds it or has put another file in its place.
fn lock(path: &Path, how: Hold, file: File) -> io::Result<Option<File>> {
    let found = file.metadata()?;
    if !can_be_held(&found) {
        // Nobody changes a stream, and readers cannot share it.
        return match how {
            Hold::Shared => Ok(Some(file)),
            Hold::Alone => {
                let kind = kind(&found);
                let why = format!("is {kind}, which cannot be changed");
                Err(io::Error::other(why))
            }
        };
    }
    match how.lock(&file) {
        Err(TryLockError::WouldBlock) => Ok(None),
        Err(TryLockError::Error(error)) => Err(error),
        Ok(()) => Ok(leads_to(path, &file)?.then_some(file)),
    }
}

fn can_be_held(found: &Metadata) -> bool {
    found.is_file() || found.file_type().is_block_device()
}

/// Tells whether a path still leads to an open file.
fn leads_to(path: &Path, file: &File) -> io::Result<bool> {
    let found = file.metadata()?;
    Ok(fs::metadata(path).is_ok_and(|now| same(&now, &found)))
}

/// A file that is held alone and may have been missing: then an empty one is made to be held, and
/// goes again if it is still there and empty at the end.
pub struct Claim {
    path: PathBuf,
    file: File,
    made: bool,
}

impl Claim {
    /// Holds a file, made if it is missing.
    pub fn new(path: &Path) -> Result<Self, Failure> {
        let made = Cell::new(false);
        let open = || match Hold::Alone.open(path) {
            Err(error) if error.kind() == ErrorKind::NotFound && !path.is_symlink() => {
                let file = make(path)?;
                made.set(true);
                Ok(file)
            }
            opened => opened,
        };
        let file = wait_for(path, Hold::Alone, open)?;
        Ok(Self {
            path: path.to_path_buf(),
            file,
            made: made.get(),
        })
    }

    /// The path that was given.
    pub fn path(&self) -> &Path {
        &self.path
    }

    /// The file.
    pub fn file(&self) -> &File {
        &self.file
    }
}

/// Makes an empty file, or opens the one that another command has just made.
fn make(path: &Path) -> io::Result<File> {
    named(path)?;
    OpenOptions::new()
        .read(true)
        .write(true)
        .create(true)
        .truncate(false)
        .open(path)
        .map_err(|error| unmade(path, error))
}

impl Drop for Claim {
    fn drop(&mut self) {
        let empty = self.file.metadata().is_ok_and(|found| found.len() == 0);
        if self.made && empty && leads_to(&self.path, &self.file).unwrap_or(false) {
            let _ = fs::remove_file(&self.path);
        }
    }
}

#[cfg(test)]
mod tests {
    use super::*;

    /// Between opening a file and locking it, another command may put another file in its place, or
    /// remove it.
    #[test]
    fn a_file_that_was_replaced_is_not_held() {
        let name = format!("tfs-lock-{}", std::process::id());
        let folder = std::env::temp_dir().join(name);
        fs::create_dir(&folder).unwrap();
        let (path, other) = (folder.join("f"), folder.join("g"));
        fs::write(&path, b"old").unwrap();
        fs::write(&other, b"new").unwrap();
        let held = |file: &File| lock(&path, Hold::Alone, file.try_clone().unwrap()).unwrap();
        let old = Hold::Alone.open(&path).unwrap();
        assert!(held(&old).is_some());
        fs::rename(&other, &path).unwrap();
        assert!(held(&old).is_none());
        let new = Hold::Alone.open(&path).unwrap();
        assert!(held(&new).is_some());
        fs::remove_file(&path).unwrap();
        assert!(held(&new).is_none());
        fs::remove_dir_all(&folder).unwrap();
    }
}
