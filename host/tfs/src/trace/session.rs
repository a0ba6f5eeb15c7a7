//! Requests on a volume, each noted down with its answer.

use super::{append, malformed};
use crate::failure::Failure;
use crate::files::{self, Claim, Prepared};
use crate::image::Image;
use crate::survey::{cause, Asked};
use crate::volume::LARGEST_FILE;
use proved::tfs::{self, Transferred};
use proved::trace::{kind, Entry, Record};
use proved::Refusal;
use std::fs::File;
use std::io::Write;
use std::path::Path;

/// More bytes than the records of one command have: the trace is not moved for them.
const RECORDED: usize = 1 << 22;

/// What a read gives.
pub struct Content {
    /// The bytes.
    pub bytes: Vec<u8>,
    /// How many content blocks they lie in; a trace does not hold it.
    pub blocks: u32,
}

/// Requests and their answers, behind those of a trace that they are to be added to.
#[derive(Default)]
pub struct Session {
    /// The file of the trace, held, if there is to be one.
    file: Option<Claim>,
    trace: Vec<u8>,
    /// Whether a request has changed the volume.
    changed: bool,
    /// The cause of the last refusal.
    cause: String,
}

impl Session {
    /// Goes on with the trace of a file, which may be missing; without a path nothing is kept. The
    /// image is held before the trace, so that no two commands wait for each other.
    pub fn open(path: Option<&Path>, image: &Path) -> Result<Self, Failure> {
        let Some(path) = path else {
            return Ok(Self::default());
        };
        files::apart(path, image, "the image")?;
        let file = Claim::new(path)?;
        let mut trace = Vec::new();
        let read = files::read_on(file.file(), &mut trace, usize::MAX)
            .and_then(|()| Ok(process::tried(|| trace.try_reserve_exact(RECORDED))?));
        read.map_err(|error| Failure::host(path, error))?;
        if let Some(failure) = malformed(path, &trace) {
            return Err(failure);
        }
        Ok(Self {
            file: Some(file),
            trace,
            ..Self::default()
        })
    }

    /// The trace with all that was noted.
    pub fn trace(&self) -> &[u8] {
        &self.trace
    }

    /// The cause of the last refusal.
    pub fn cause(&self) -> &str {
        &self.cause
    }

    /// Creates a file; its inode number, which a trace does not hold.
    pub fn create(&mut self, volume: &mut [u8], name: &[u8], size: u32) -> Result<u32, Refusal> {
        let answer = tfs::create(volume, name, size);
        let entry = Entry {
            kind: kind::CREATE,
            size: size.into(),
            ..Entry::default()
        };
        self.changed |= answer.is_ok();
        self.explain(volume, answer.err(), Asked::Create(name, size));
        self.note(entry, name, b"", answer.map(|_| 0))?;
        answer
    }

    /// Removes a file.
    pub fn remove(&mut self, volume: &mut [u8], name: &[u8]) -> Result<(), Refusal> {
        let answer = tfs::remove(volume, name);
        let entry = Entry {
            kind: kind::REMOVE,
            ..Entry::default()
        };
        self.changed |= answer.is_ok();
        self.explain(volume, answer.err(), Asked::Name(name));
        self.note(entry, name, b"", answer.map(|()| 0))?;
        answer
    }

    /// Reads a file into a buffer of some length; what it gives.
    pub fn read(
        &mut self,
        volume: &[u8],
        name: &[u8],
        offset: u32,
        length: u32,
    ) -> Result<Content, Refusal> {
        // A longer buffer would not hold more: no file has more bytes.
        let mut bytes = vec![0; length.min(LARGEST_FILE) as usize];
        let answer = tfs::read(volume, name, offset, &mut bytes);
        bytes.truncate(answer.map_or(0, |read| read.count) as usize);
        let entry = Entry {
            kind: kind::READ,
            offset: offset.into(),
            length: length.into(),
            ..Entry::default()
        };
        self.explain(volume, answer.err(), Asked::At(name, offset));
        self.note(entry, name, &bytes, answer.map(|_| 0))?;
        answer.map(|read| Content {
            bytes,
            blocks: read.blocks,
        })
    }

    /// Writes bytes into a file; of what it gives, the count is noted.
    pub fn write(
        &mut self,
        volume: &mut [u8],
        name: &[u8],
        offset: u32,
        bytes: &[u8],
    ) -> Result<Transferred, Refusal> {
        let answer = tfs::write(volume, name, offset, bytes);
        let entry = Entry {
            kind: kind::WRITE,
            offset: offset.into(),
            ..Entry::default()
        };
        self.changed |= answer.is_ok();
        self.explain(volume, answer.err(), Asked::At(name, offset));
        self.note(entry, name, bytes, answer.map(|written| written.count))?;
        answer
    }

    /// The free bytes.
    pub fn free_bytes(&mut self, volume: &[u8]) -> Result<u32, Refusal> {
        let answer = tfs::free_bytes(volume);
        let entry = Entry {
            kind: kind::FREE_BYTES,
            ..Entry::default()
        };
        self.explain(volume, answer.err(), Asked::Check);
        self.note(entry, b"", b"", answer)?;
        answer
    }

    /// Makes the request of a record, whatever answer that expects.
    pub fn ask(&mut self, volume: &mut [u8], record: &Record<'_>) {
        let Record { entry, name, bytes } = *record;
        let offset = entry.offset as u32;
        // The answer is what is noted.
        let _ = match entry.kind {
            kind::CREATE => self.create(volume, name, entry.size as u32).map(drop),
            kind::REMOVE => self.remove(volume, name),
            kind::READ => self
                .read(volume, name, offset, entry.length as u32)
                .map(drop),
            kind::WRITE => self.write(volume, name, offset, bytes).map(drop),
            _ => self.free_bytes(volume).map(drop),
        };
    }

    /// Keeps the cause of a refusal, while the volume is as it was asked.
    fn explain(&mut self, volume: &[u8], refusal: Option<Refusal>, asked: Asked<'_>) {
        if let Some(refusal) = refusal {
            self.cause = cause(volume, refusal, asked);
        }
    }

    /// Notes a request with its answer. A refusal of this is that of a length of 2^32 or more.
    fn note(
        &mut self,
        entry: Entry,
        name: &[u8],
        bytes: &[u8],
        answer: Result<u32, Refusal>,
    ) -> Result<(), Refusal> {
        let (refusal, value) = match answer {
            Ok(value) => (0, value),
            Err(refusal) => (refusal.number, 0),
        };
        let entry = Entry {
            refusal: refusal.into(),
            value: value.into(),
            ..entry
        };
        append(&mut self.trace, &Record { entry, name, bytes })
    }

    /// Ends with a refusal, which is noted, unless the volume was changed before it: that is lost
    /// with the refusal, and a trace of it would not fit the image.
    pub fn refused(self, image: &Image, refusal: Refusal) -> Failure {
        let failure = image.refused_because(refusal, self.cause.clone());
        let noted = match self.changed {
            true => Ok(()),
            false => self.save(),
        };
        noted.err().unwrap_or(failure)
    }

    /// Writes the trace alone.
    pub fn save(self) -> Result<(), Failure> {
        self.prepare()?.map_or(Ok(()), Prepared::put_in_place)
    }

    /// Writes the trace beside its place, lets a file be written, and then puts the trace in place.
    pub fn save_with(
        self,
        file: &Path,
        write: impl FnOnce() -> Result<(), Failure>,
    ) -> Result<(), Failure> {
        let prepared = self.prepare()?;
        write()?;
        let placed = prepared.map_or(Ok(()), Prepared::put_in_place);
        placed.map_err(|failure| failure.but_changed(file))
    }

    fn prepare(&self) -> Result<Option<Prepared>, Failure> {
        let fill = |mut to: &File| to.write_all(&self.trace);
        let prepare = |file: &Claim| files::replace_by(file.path(), fill);
        self.file.as_ref().map(prepare).transpose()
    }
}

#[cfg(test)]
mod tests {
    use super::*;
    use std::fs;

    /// The trace's place becomes a folder after the trace is written beside it.
    #[test]
    fn a_trace_that_cannot_be_put_in_place_is_told() {
        let folder = std::env::temp_dir().join(format!("tfs-session-{}", std::process::id()));
        fs::create_dir(&folder).unwrap();
        let (image, trace) = (folder.join("v"), folder.join("t"));
        let session = Session::open(Some(&trace), &image).unwrap();
        let saved = session.save_with(&image, || {
            fs::remove_file(&trace).unwrap();
            fs::create_dir(&trace).unwrap();
            files::write_if(&image, b"new", true)
        });
        let failure = saved.unwrap_err();
        let told = format!(
            "{}: Is a directory (os error 21); {} has been changed, the trace has not",
            trace.display(),
            image.display()
        );
        assert_eq!((failure.status(), failure.to_string()), (3, told));
        assert_eq!(fs::read(&image).unwrap(), b"new");
        assert_eq!(fs::read_dir(&folder).unwrap().count(), 2);
        fs::remove_dir_all(&folder).unwrap();
    }
}
