//! Files of a volume written to host files.

use super::{among, blocks_line, distinct, each, host_name, told, Moved};
use crate::failure::{Failure, Outcome};
use crate::files::{self, Prepared, Stream, STANDARD};
use crate::image::Image;
use crate::progress::Progress;
use crate::report::Form;
use crate::trace::{Content, Session};
use crate::volume::LARGEST_FILE;
use crate::words;
use std::io::Write;
use std::path::{Path, PathBuf};

/// What is got: a file or a part of it, into a host file of its own name or another.
pub struct Get<'a> {
    pub name: &'a [u8],
    pub host: Option<&'a Path>,
    /// The offset of the part.
    pub at: u32,
    /// Its length, if it does not go to the end.
    pub length: Option<u32>,
    /// Whether a host file that stands there is replaced.
    pub force: bool,
    /// Whether the number of content blocks is told.
    pub blocks: bool,
}

/// Gets a file out of a volume. With the content on standard output, what is told of it goes to
/// standard error.
pub fn get(path: &Path, given: &Get<'_>, record: Option<&Path>, form: Form) -> Outcome {
    let host = match given.host {
        Some(host) => host,
        None => as_host_file(given.name, "give a HOSTFILE")?,
    };
    let stream = Stream::at(host);
    if stream.is_some() && form.is_json() {
        let why = "get: --json may be mixed with the content on a stream; give a plain HOSTFILE";
        return Err(Failure::Usage(why.to_string()));
    }
    let image = Image::load_volume(path)?;
    let mut session = Session::open(record, path)?;
    let length = given.length.unwrap_or(LARGEST_FILE);
    let content = match session.read(&image.bytes, given.name, given.at, length) {
        Ok(content) => content,
        Err(refusal) => return Err(session.refused(&image, refusal)),
    };
    whole(&image, given, content.bytes.len())?;
    // Who reads the content may wait for the image.
    drop(image);
    apart_from_all(host, path, record)?;
    let moved = [moved(given.name, &content)];
    if let Some(stream) = stream {
        session.save()?;
        let line = blocks_line(given.blocks, &moved);
        return to_stream(&stream, &content.bytes, line);
    }
    session.save_with(host, || {
        prepare(host, &content, given.force)?.put_in_place()
    })?;
    Ok(told(form, given.blocks, &moved, false))
}

/// Fails where a file has fewer bytes than a part must have.
fn whole(image: &Image, given: &Get<'_>, count: usize) -> Result<(), Failure> {
    match given.length {
        Some(length) if count < length as usize => {
            let (name, offset) = (words::name(given.name), given.at);
            let bytes = words::count(count, "byte");
            let why = format!("{name} has only {bytes} from offset {offset} on");
            Err(image.past_end(why))
        }
        _ => Ok(()),
    }
}

fn moved<'a>(name: &'a [u8], content: &Content) -> Moved<'a> {
    Moved {
        name,
        size: content.bytes.len(),
        blocks: content.blocks,
    }
}

/// Writes content beside the place of a host file.
fn prepare(host: &Path, content: &Content, force: bool) -> Result<Prepared, Failure> {
    files::prepare(host, force, |mut file| file.write_all(&content.bytes))
}

/// Fails where a host file is the image or the trace.
fn apart_from_all(host: &Path, image: &Path, trace: Option<&Path>) -> Result<(), Failure> {
    if host == Path::new(STANDARD) {
        return Ok(());
    }
    files::apart(host, image, "the image")?;
    trace.map_or(Ok(()), |trace| files::apart(host, trace, "the trace"))
}

/// Writes content to a stream; what is told of it goes to standard error if that is standard output.
fn to_stream(stream: &Stream, content: &[u8], told: String) -> Outcome {
    stream.write(content)?;
    match stream {
        Stream::Output => files::print_beside(told.as_bytes()).map(|()| Vec::new()),
        _ => Ok(told.into_bytes()),
    }
}

/// A name as that of a host file; where it can be none, what to do instead is told.
fn as_host_file<'a>(name: &'a [u8], instead: &str) -> Result<&'a Path, Failure> {
    let none = || Failure::Usage(format!("get: {}: {instead}", words::name(name)));
    host_name(name).ok_or_else(none)
}

/// What is got: files, into host files of their own names in a folder.
pub struct GetAll<'a> {
    pub names: &'a [Vec<u8>],
    pub folder: &'a Path,
    /// Whether host files that stand there are replaced.
    pub force: bool,
    /// Whether the number of content blocks is told.
    pub blocks: bool,
}

/// Gets files out of a volume. None is put in place before all are written.
pub fn get_all(path: &Path, given: &GetAll<'_>, record: Option<&Path>, form: Form) -> Outcome {
    let names = given.names;
    distinct("get", names.iter().map(Vec::as_slice))?;
    let hosts = hosts(given)?;
    if given.folder.exists() && !given.folder.is_dir() {
        return Err(Failure::host(given.folder, "is not a folder"));
    }
    let image = Image::load_volume(path)?;
    let mut session = Session::open(record, path)?;
    let read = each(names, |name| {
        session.read(&image.bytes, name, 0, LARGEST_FILE)
    });
    let contents = match read {
        Ok(contents) => contents,
        Err((name, refusal)) => {
            let failure = session.refused(&image, refusal);
            return Err(among(names.len() > 1, name, failure));
        }
    };
    drop(image);
    hosts
        .iter()
        .try_for_each(|host| apart_from_all(host, path, record))?;
    session.save_with(given.folder, || write_all(&hosts, &contents, given.force))?;
    let pairs = names.iter().zip(&contents);
    let moved: Vec<_> = pairs.map(|(name, content)| moved(name, content)).collect();
    Ok(told(form, given.blocks, &moved, true))
}

/// The host files that files go to.
fn hosts(given: &GetAll<'_>) -> Result<Vec<PathBuf>, Failure> {
    let host = |name: &Vec<u8>| {
        let file = as_host_file(name, "get it without --to, with a HOSTFILE")?;
        Ok(given.folder.join(file))
    };
    given.names.iter().map(host).collect()
}

/// Writes host files beside their places, and puts them there when all are written.
fn write_all(hosts: &[PathBuf], contents: &[Content], force: bool) -> Result<(), Failure> {
    let total: usize = contents.iter().map(|content| content.bytes.len()).sum();
    let mut progress = Progress::new("writing host files", total as u64).of_files(hosts.len());
    let mut pairs: Vec<(&PathBuf, &Content)> = hosts.iter().zip(contents).collect();
    // In one order, so that no two commands wait for each other.
    pairs.sort_by_key(|(host, _)| *host);
    let prepared = pairs.into_iter().map(|(host, content)| {
        let prepared = prepare(host, content, force)?;
        progress.add_file(content.bytes.len() as u64);
        Ok(prepared)
    });
    let prepared: Vec<Prepared> = prepared.collect::<Result<_, _>>()?;
    prepared.into_iter().try_for_each(Prepared::put_in_place)
}
