//! Host files put into a volume: as new files, or into one that stands.

use super::{among, distinct, each, told, Moved};
use crate::failure::{Failure, Outcome};
use crate::files::{self, STANDARD};
use crate::image::{Changing, Image};
use crate::progress::Progress;
use crate::report::Form;
use crate::stores::Change;
use crate::trace::Session;
use crate::volume::{LARGEST_FILE, SLOTS};
use crate::words;
use proved::tfs::Transferred;
use proved::Refusal;
use std::ffi::{OsStr, OsString};
use std::os::unix::ffi::OsStrExt;
use std::path::Path;

const NO_SUCH_NAME: u32 = 13;

/// What is put: host files, under their own names, or one under another.
pub struct Put<'a> {
    pub hosts: &'a [OsString],
    pub name: Option<&'a [u8]>,
    /// The offset in the file that stands, if no new one is made.
    pub at: Option<u32>,
    /// How many bytes of the host file are taken, if not all.
    pub length: Option<u32>,
    /// Whether a file of that name is replaced.
    pub replace: bool,
    /// Whether the number of content blocks is told.
    pub blocks: bool,
    /// Whether the image is changed store by store.
    pub in_place: bool,
}

/// A name and the bytes that are put there.
struct Item<'a> {
    name: &'a [u8],
    content: Vec<u8>,
}

/// Puts host files into a volume, all or none.
pub fn put(path: &Path, given: &Put<'_>, record: Option<&Path>, form: Form) -> Outcome {
    // The image is not held before: the content may come from another command on it.
    let items = items(given)?;
    let several = items.len() > 1;
    let mut changing = Changing::load(path, given.in_place)?;
    let mut session = Session::open(record, path)?;
    let volume = &mut changing.image.bytes;
    let stored = each(&items, |item| match given.at {
        None => store(&mut session, volume, item, given.replace),
        Some(offset) => store_at(&mut session, volume, item, offset),
    });
    let (changes, written): (Vec<Vec<_>>, Vec<_>) = match stored {
        Err((item, refusal)) => {
            let failure = session.refused(&changing.image, refusal);
            return Err(among(several, item.name, failure));
        }
        Ok(stored) => stored.into_iter().unzip(),
    };
    whole(&changing.image, &items, &written, given.at)?;
    let changes: Vec<Change<'_>> = changes.into_iter().flatten().collect();
    session.save_with(path, || changing.save(&changes))?;
    let moved = items.iter().zip(written).map(|(item, written)| Moved {
        name: item.name,
        size: item.content.len(),
        blocks: written.blocks,
    });
    Ok(told(
        form,
        given.blocks,
        &moved.collect::<Vec<_>>(),
        several,
    ))
}

/// Reads what is to be put. A volume has no room for more files than are read.
fn items<'a>(given: &Put<'a>) -> Result<Vec<Item<'a>>, Failure> {
    let count = given.hosts.len();
    if count > SLOTS as usize {
        let why = format!("put: {count} files are given, and a volume has at most {SLOTS}");
        return Err(Failure::Usage(why));
    }
    let hosts = || given.hosts.iter().map(Path::new);
    let names: Vec<&[u8]> = hosts()
        .map(|host| name(host, given))
        .collect::<Result<_, _>>()?;
    distinct("put", names.iter().copied())?;
    let mut progress = Progress::new("reading host files", 0).of_files(count);
    let item = |(name, host)| {
        let content = content(host, given.length)?;
        progress.add_file(content.len() as u64);
        Ok(Item { name, content })
    };
    names.into_iter().zip(hosts()).map(item).collect()
}

/// The name that a host file gets in the volume.
fn name<'a>(host: &'a Path, given: &Put<'a>) -> Result<&'a [u8], Failure> {
    let hint = match given.hosts.len() {
        1 => "give a --name",
        _ => "put it alone, with a --name",
    };
    let none = || Failure::Usage(format!("put: {}: {hint}", host.display()));
    given.name.or_else(|| base_name(host)).ok_or_else(none)
}

/// The name of a host file without its folder; standard input has none.
fn base_name(host: &Path) -> Option<&[u8]> {
    if host == Path::new(STANDARD) {
        return None;
    }
    host.file_name().map(OsStr::as_bytes)
}

/// The bytes of a host file: all, or the first ones, as many as are asked for.
fn content(host: &Path, length: Option<u32>) -> Result<Vec<u8>, Failure> {
    // One byte more than a file may have is enough for the refusal.
    let most = LARGEST_FILE + 1;
    let asked = length.map_or(most, |length| length.min(most)) as usize;
    let content = files::read_at_most(host, asked)?;
    match length {
        Some(length) if content.len() < asked => {
            let bytes = words::count(content.len(), "byte");
            Err(Failure::host(
                host,
                format!("has only {bytes}, not {length}"),
            ))
        }
        _ => Ok(content),
    }
}

/// What a request has changed, and what it has written.
type Stored<'a> = (Vec<Change<'a>>, Transferred);

/// Makes a file with some content in a volume in memory.
fn store<'a>(
    session: &mut Session,
    volume: &mut [u8],
    item: &'a Item<'_>,
    replace: bool,
) -> Result<Stored<'a>, Refusal> {
    let (name, content) = (item.name, &item.content[..]);
    let mut changes = Vec::new();
    if replace {
        match session.remove(volume, name) {
            Err(refusal) if refusal.number != NO_SUCH_NAME => return Err(refusal),
            Err(_) => {}
            Ok(()) => changes.push(Change::Remove(name)),
        }
    }
    let size = content.len() as u32;
    session.create(volume, name, size)?;
    let written = session.write(volume, name, 0, content)?;
    changes.extend([Change::Create(name, size), Change::Write(name, 0, content)]);
    Ok((changes, written))
}

/// Writes into a file that stands in a volume in memory.
fn store_at<'a>(
    session: &mut Session,
    volume: &mut [u8],
    item: &'a Item<'_>,
    offset: u32,
) -> Result<Stored<'a>, Refusal> {
    let written = session.write(volume, item.name, offset, &item.content)?;
    let change = Change::Write(item.name, offset, &item.content);
    Ok((vec![change], written))
}

/// Fails where a file has no room for all that was to be written; the image is not yet changed.
fn whole(
    image: &Image,
    items: &[Item<'_>],
    written: &[Transferred],
    at: Option<u32>,
) -> Result<(), Failure> {
    let mut pairs = items.iter().zip(written);
    let short = pairs.find(|(item, written)| item.content.len() != written.count as usize);
    short.map_or(Ok(()), |(item, written)| {
        let (name, offset) = (words::name(item.name), at.unwrap_or(0));
        let room = words::count(written.count, "byte");
        let why = format!("{name} has room for only {room} from offset {offset} on");
        Err(image.past_end(why))
    })
}
