//! A volume made of the files of a folder.

use super::each;
use crate::escapes;
use crate::failure::{Failure, Outcome};
use crate::files;
use crate::progress::Progress;
use crate::report::Form;
use crate::stores::BLOCK_SIZE;
use crate::survey::Asked;
use crate::volume::{empty, refused, write_image, LARGEST_FILE, SLOTS};
use crate::words;
use proved::{tfs, Refusal};
use std::fs::{self, DirEntry};
use std::os::unix::ffi::OsStringExt;
use std::path::Path;

/// The blocks of a volume without files.
const FIXED_BLOCKS: usize = 3;

const NAME_STANDS: u32 = 10;
const NO_FREE_SLOT: u32 = 11;

/// How a volume is built.
pub struct Build<'a> {
    /// The size of the image, if not the smallest one that holds the files.
    pub size: Option<u32>,
    pub label: &'a [u8],
    /// Whether the names of the host files are escaped.
    pub escaped: bool,
    /// Whether a file that stands in the image's place is replaced.
    pub force: bool,
}

/// A file for the volume.
struct Source {
    name: Vec<u8>,
    content: Vec<u8>,
}

impl Source {
    /// The blocks that it takes: those of its content and its inode.
    fn blocks(&self) -> usize {
        1 + self.content.len().div_ceil(BLOCK_SIZE)
    }

    /// Makes it in a volume in memory.
    fn store(&self, volume: &mut [u8]) -> Result<(), Refusal> {
        tfs::create(volume, &self.name, self.content.len() as u32)?;
        tfs::write(volume, &self.name, 0, &self.content).map(drop)
    }
}

/// Makes a volume of the plain files of a folder, in the order of their names.
pub fn build(folder: &Path, path: &Path, given: &Build<'_>, form: Form) -> Outcome {
    let sources = sources(folder, path, given.escaped)?;
    let blocks = FIXED_BLOCKS + sources.iter().map(Source::blocks).sum::<usize>();
    let size = given.size.unwrap_or((blocks * BLOCK_SIZE) as u32);
    let mut volume = empty(path, size, given.label)?;
    let stored = each(&sources, |source| source.store(&mut volume));
    stored.map_err(|(source, refusal)| {
        let asked = Asked::Create(&source.name, source.content.len() as u32);
        refused(path, &volume, refusal, asked).at_name(&source.name)
    })?;
    write_image(path, &volume, size, given.force)?;
    let members = |source: &Source| {
        vec![
            ("name", words::name(&source.name).into()),
            ("size", source.content.len().into()),
        ]
    };
    Ok(form.told(String::new, || {
        let files = sources.iter().map(members).collect();
        vec![("size", size.into()), ("files", files)]
    }))
}

/// The files of a folder, in the order of their names in the volume.
fn sources(folder: &Path, image: &Path, escaped: bool) -> Result<Vec<Source>, Failure> {
    let mut named = entries(folder)?
        .into_iter()
        .map(|entry| Ok((name(&entry, escaped)?, entry)))
        .collect::<Result<Vec<_>, Failure>>()?;
    named.sort_by(|(one, _), (other, _)| one.cmp(other));
    let twice = named.windows(2).find(|pair| pair[0].0 == pair[1].0);
    if let Some([_, (_, entry)]) = twice {
        let cause = "another file of the folder has the same name";
        return Err(unfit(&entry.path(), NAME_STANDS, cause));
    }
    let what = format!("reading {}", folder.display());
    let mut progress = Progress::new(&what, 0).of_files(named.len());
    let source = |(name, entry): (Vec<u8>, DirEntry)| {
        let host = entry.path();
        files::apart(&host, image, "the image")?;
        // One byte more than a file may have is enough for the refusal.
        let content = files::read_at_most(&host, LARGEST_FILE as usize + 1)?;
        progress.add_file(content.len() as u64);
        Ok(Source { name, content })
    };
    named.into_iter().map(source).collect()
}

/// The entries of a folder, which are plain files and no more than a volume has.
fn entries(folder: &Path) -> Result<Vec<DirEntry>, Failure> {
    let failed = |error| Failure::host(folder, error);
    let most = SLOTS as usize;
    let found = fs::read_dir(folder).and_then(|found| found.take(most + 1).collect());
    let mut entries: Vec<DirEntry> = found.map_err(failed)?;
    if entries.len() > most {
        let cause = "the folder has more than 25 entries";
        return Err(unfit(folder, NO_FREE_SLOT, cause));
    }
    entries.sort_by_key(DirEntry::file_name);
    let is_other = |entry: &&DirEntry| !entry.file_type().is_ok_and(|found| found.is_file());
    match entries.iter().find(is_other) {
        Some(other) => Err(Failure::host(&other.path(), "not a plain file")),
        None => Ok(entries),
    }
}

/// The refusal of something on the host that a volume cannot have.
fn unfit(host: &Path, number: u32, cause: &str) -> Failure {
    let refusal = Refusal { number, place: 0 };
    Failure::refused(host, refusal, cause.to_string())
}

/// The name of a host file in the volume.
fn name(entry: &DirEntry, escaped: bool) -> Result<Vec<u8>, Failure> {
    let host = entry.file_name().into_vec();
    match escaped {
        true => escapes::bytes(&host).map_err(|why| Failure::host(&entry.path(), why)),
        false => Ok(host),
    }
}
