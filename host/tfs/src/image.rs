//! An image of a filesystem in a host file or on a block device, held while it is used.

use crate::failure::Failure;
use crate::files::{self, Hold};
use crate::progress::Progress;
use crate::stores::{program, store_in, Change, Trouble};
use crate::survey::{cause, Asked};
use crate::words;
use proved::{tfs, Refusal};
use std::fs::File;
use std::io::{self, Seek, SeekFrom, Write};
use std::os::unix::fs::FileTypeExt;
use std::path::{Path, PathBuf};

/// The length of the longest volume; an image has no meaning behind it.
pub const LONGEST_VOLUME: usize = 4096 * 512;

/// What a romfs image begins with, and the number of bytes under which one is refused.
const ROM_MAGIC: &[u8] = b"-rom1fs-";
const ROM_HEADER: usize = 32;

/// The bytes of an image and the file that they come from.
pub struct Image {
    path: PathBuf,
    /// The bytes that have a meaning, which a request may change; the file stays until it is saved.
    pub bytes: Vec<u8>,
    /// The file, held, and read up to the end of these bytes.
    file: File,
}

impl Image {
    /// Reads a romfs image up to the full size that it tells.
    pub fn load_rom(path: &Path) -> Result<Self, Failure> {
        let mut image = Self::open(path, Hold::Shared)?;
        image.read_on(ROM_HEADER)?;
        if let Some([a, b, c, d]) = image
            .bytes
            .strip_prefix(ROM_MAGIC)
            .and_then(<[u8]>::first_chunk)
        {
            let full_size = u32::from_be_bytes([*a, *b, *c, *d]);
            image.read_on(full_size as usize)?;
        }
        Ok(image)
    }

    /// Reads an image of a volume, as much as a volume may have.
    pub fn load_volume(path: &Path) -> Result<Self, Failure> {
        let mut image = Self::open(path, Hold::Shared)?;
        image.read_on(LONGEST_VOLUME)?;
        Ok(image)
    }

    /// Holds the file of an image, and removes what killed commands have left of it.
    fn open(path: &Path, how: Hold) -> Result<Self, Failure> {
        let file = files::hold(path, how)?;
        if let Ok(place) = std::fs::canonicalize(path) {
            files::remove_dead_files(&place);
        }
        Ok(Self {
            path: path.to_path_buf(),
            bytes: Vec::new(),
            file,
        })
    }

    fn read_on(&mut self, most: usize) -> Result<(), Failure> {
        let read = files::read_on(&self.file, &mut self.bytes, most);
        read.map_err(|error| Failure::host(&self.path, error))
    }

    /// Writes a volume of the same length to a file, and what the image has behind it.
    pub fn write_with(&self, volume: &[u8], mut to: &File) -> io::Result<()> {
        to.write_all(volume)?;
        if files::is_block_device(&self.path) {
            return Ok(());
        }
        let what = format!("copying {}", self.path.display());
        files::copy_rest(&self.file, volume.len() as u64, to, &what)
    }

    /// A refusal of what was asked of this image as a failure.
    pub fn refused(&self, refusal: Refusal, asked: Asked<'_>) -> Failure {
        self.refused_because(refusal, cause(&self.bytes, refusal, asked))
    }

    /// A refusal whose cause is known as a failure with this image. It tells where a mend would be
    /// granted.
    pub fn refused_because(&self, refusal: Refusal, mut cause: String) -> Failure {
        if refusal.number == 7 && tfs::mend(&mut self.bytes.clone()).is_ok() {
            cause += " (tfs mend helps)";
        }
        Failure::refused(&self.path, refusal, cause)
    }

    /// The number of bytes of the file; a stream does not tell it.
    pub fn length(&self) -> Option<u64> {
        let mut file = &self.file;
        let kind = file.metadata().ok()?.file_type();
        if !kind.is_file() && !kind.is_block_device() {
            return None;
        }
        let read = file.stream_position().ok()?;
        let end = file.seek(SeekFrom::End(0)).ok()?;
        file.seek(SeekFrom::Start(read)).ok()?;
        Some(end)
    }

    /// A failure with a part of a file that goes past the file's end.
    pub fn past_end(&self, why: String) -> Failure {
        Failure::PastEnd(self.path.clone(), why)
    }

    /// A failure to read what this image must have.
    pub fn unread(&self, why: impl std::fmt::Display) -> Failure {
        Failure::host(&self.path, why)
    }
}

/// An image of a volume that is to be changed, and that no other command reads meanwhile.
pub struct Changing {
    /// The image, whose bytes the requests change.
    pub image: Image,
    /// The bytes that the file holds, if it is to be written in place.
    held: Option<Vec<u8>>,
}

impl Changing {
    /// Reads an image; a block device can only be written in place.
    pub fn load(path: &Path, in_place: bool) -> Result<Self, Failure> {
        let mut image = Image::open(path, Hold::Alone)?;
        image.read_on(LONGEST_VOLUME)?;
        let in_place = in_place || files::is_block_device(path);
        let held = in_place.then(|| image.bytes.clone());
        Ok(Self { image, held })
    }

    /// Writes the image back, whole or not at all, or in place by the stores of the changes that
    /// have made it what it is.
    pub fn save(self, changes: &[Change<'_>]) -> Result<(), Failure> {
        let image = &self.image;
        match self.held {
            None => {
                let fill = |to: &File| image.write_with(&image.bytes, to);
                files::replace_by(&image.path, fill)?.put_in_place()
            }
            Some(mut volume) => store_all(image, &mut volume, changes),
        }
    }
}

/// Writes the stores of changes into the file itself.
fn store_all(image: &Image, volume: &mut [u8], changes: &[Change<'_>]) -> Result<(), Failure> {
    let mut progress = Progress::new(&format!("storing in {}", image.path.display()), 0);
    let stored = program(volume, changes, |number, block| {
        store_in(&image.file, number, block)?;
        progress.add(block.len() as u64);
        Ok(())
    });
    stored.map_err(|trouble| match trouble {
        Trouble::Refused(refusal) => image.refused_because(refusal, words::refusal(refusal)),
        Trouble::Store(error, before) => {
            let why = "and perhaps this one (tfs check tells whether to mend)";
            let stored = format!("{error}; blocks stored before: {before}, {why}");
            image.unread(stored)
        }
    })
}
