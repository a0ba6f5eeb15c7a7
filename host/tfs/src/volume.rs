//! The commands on a TFS volume. Each gives what goes to standard output.

use crate::failure::{Failure, Outcome};
use crate::files;
use crate::image::{Changing, Image, LONGEST_VOLUME};
use crate::json::Members;
use crate::report::Form;
use crate::stores::{Change, BLOCK_SIZE};
use crate::survey::{cause, Asked};
use crate::trace::Session;
use crate::words;
use proved::{tfs, Refusal};
use std::fs::File;
use std::io::Write;
use std::path::Path;

/// The number of slots of a directory.
pub const SLOTS: u32 = 25;

/// The size of the largest file.
pub const LARGEST_FILE: u32 = 65_024;

/// Writes a new volume to a file, which gets this size.
pub fn write_image(path: &Path, volume: &[u8], size: u32, force: bool) -> Result<(), Failure> {
    let fill = |mut file: &File| {
        file.write_all(volume)?;
        file.set_len(size.into())
    };
    files::prepare(path, force, fill)?.put_in_place()
}

/// An empty volume for an image of this size.
pub fn empty(path: &Path, size: u32, label: &[u8]) -> Result<Vec<u8>, Failure> {
    let mut volume = vec![0; (size as usize).min(LONGEST_VOLUME)];
    match tfs::format(&mut volume, label) {
        Ok(()) => Ok(volume),
        Err(refusal) => Err(refused(path, &volume, refusal, Asked::Label(label))),
    }
}

/// A refusal of what was asked of a volume that is not yet in its file.
pub fn refused(path: &Path, volume: &[u8], refusal: Refusal, asked: Asked<'_>) -> Failure {
    Failure::refused(path, refusal, cause(volume, refusal, asked))
}

/// Makes an empty volume in a new file, or in place of one if forced.
pub fn make(path: &Path, size: u32, label: &[u8], force: bool) -> Outcome {
    let volume = empty(path, size, label)?;
    write_image(path, &volume, size, force)?;
    Ok(Vec::new())
}

/// Lists the files of a volume.
pub fn list(path: &Path, form: Form) -> Outcome {
    let image = Image::load_volume(path)?;
    let files = files_of(&image)?;
    let text = || files.iter().map(line).collect();
    Ok(form.told(text, || {
        vec![("files", files.iter().map(members).collect())]
    }))
}

/// The files of a volume, each with its slot.
pub fn files_of(image: &Image) -> Result<Vec<(u32, tfs::File)>, Failure> {
    let mut files = Vec::new();
    for slot in 0..SLOTS {
        let listed = tfs::list(&image.bytes, slot);
        let listed = listed.map_err(|refusal| image.refused(refusal, Asked::Slot(slot)))?;
        files.extend(listed.map(|file| (slot, file)));
    }
    Ok(files)
}

/// The line of a file in its slot.
fn line((slot, file): &(u32, tfs::File)) -> String {
    let (inode, size, name) = (file.inode, file.size, words::name(&file.name));
    format!("{slot:>2} {inode:>4} {size:>5} {name}\n")
}

/// The same for a program.
fn members((slot, file): &(u32, tfs::File)) -> Members {
    vec![
        ("slot", (*slot).into()),
        ("inode", file.inode.into()),
        ("size", file.size.into()),
        ("name", words::name(&file.name).into()),
    ]
}

/// Gives the free bytes of a volume.
pub fn free(path: &Path, record: Option<&Path>, form: Form) -> Outcome {
    let image = Image::load_volume(path)?;
    let mut session = Session::open(record, path)?;
    match session.free_bytes(&image.bytes) {
        Err(refusal) => Err(session.refused(&image, refusal)),
        Ok(free) => {
            session.save()?;
            Ok(form.told(|| format!("{free}\n"), || vec![("free", free.into())]))
        }
    }
}

/// Clears the bits of a volume's map that nobody claims, and tells how many; a volume without such
/// bits is not written.
pub fn mend(path: &Path, in_place: bool, form: Form) -> Outcome {
    let mut changing = Changing::load(path, in_place)?;
    let before = changing.image.bytes.clone();
    let mended = tfs::mend(&mut changing.image.bytes);
    mended.map_err(|refusal| changing.image.refused(refusal, Asked::Check))?;
    let cleared = ones_of_map(&before) - ones_of_map(&changing.image.bytes);
    if cleared > 0 {
        changing.save(&[Change::Mend])?;
    }
    Ok(form.told(
        || format!("map bits cleared: {cleared}\n"),
        || vec![("cleared", cleared.into())],
    ))
}

/// The number of set bits in the map of a volume.
fn ones_of_map(volume: &[u8]) -> u32 {
    let map = &volume[BLOCK_SIZE..2 * BLOCK_SIZE];
    map.iter().map(|byte| byte.count_ones()).sum()
}
