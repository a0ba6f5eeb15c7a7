//! The commands on a romfs image. Each gives what goes to standard output.

mod extract;
mod walk;

use crate::failure::{Failure, Outcome};
use crate::files;
use crate::image::Image;
use crate::json::{Members, Value};
use crate::report::Form;
use crate::survey::Asked;
use crate::words;
use proved::{romfs, Refusal};
use std::path::Path;
use walk::{FileType, Header, Walk};

pub use extract::extract;

const ROOT: u32 = 0;
const HARD_LINK: u32 = 0;

/// The memory that a byte of a path or a target may take while its line or object is put together.
const LINE_OF_BYTE: usize = 32;

/// Checks an image.
pub fn check(path: &Path, form: Form) -> Outcome {
    accepted(path)?;
    Ok(form.told(
        || "accepted\n".to_string(),
        || vec![("accepted", true.into())],
    ))
}

/// Reads an image and checks it.
fn accepted(path: &Path) -> Result<Image, Failure> {
    let image = Image::load_rom(path)?;
    let checked = romfs::check(&image.bytes);
    checked.map_err(|refusal| image.refused(refusal, Asked::Check))?;
    Ok(image)
}

/// Lists the tree of an image.
pub fn list(path: &Path, form: Form) -> Outcome {
    let image = accepted(path)?;
    room_for_paths(path, &image)?;
    let entries = entries(&image).map_while(Result::ok);
    form.print_list("entries", entries, line, members)
}

/// Fails where an entry cannot be read, or there is no memory for the longest line.
fn room_for_paths(path: &Path, image: &Image) -> Result<(), Failure> {
    let mut longest = 0;
    for entry in entries(image) {
        longest = longest.max(entry?.length());
    }
    files::room_for(path, LINE_OF_BYTE * longest)
}

/// An entry of the tree.
struct Entry<'a> {
    /// The names from the root list to it.
    names: Vec<&'a [u8]>,
    header: Header<'a>,
    leads: Leads<'a>,
}

impl Entry<'_> {
    /// The number of bytes that its line shows.
    fn length(&self) -> usize {
        let target = match self.leads {
            Leads::Path(target) => target.len(),
            _ => 0,
        };
        target + self.names.iter().map(|name| name.len()).sum::<usize>()
    }
}

/// The entries in the order of the walk.
fn entries(image: &Image) -> impl Iterator<Item = Result<Entry<'_>, Failure>> {
    let mut names = Vec::new();
    Walk::new(&image.bytes).map(move |visited| {
        let (depth, header) = visited.map_err(|at| unread(image, at))?;
        let leads = leads_to(&image.bytes, &header).ok_or_else(|| unread(image, header.at))?;
        names.truncate(depth - 1);
        names.push(header.name);
        Ok(Entry {
            names: names.clone(),
            header,
            leads,
        })
    })
}

/// A path on one line. A slash within a name ends none.
fn shown(names: &[&[u8]]) -> String {
    let names = names.iter();
    let names: Vec<String> = names
        .map(|name| words::name(name).replace('/', "\\x2f"))
        .collect();
    names.join("/")
}

/// What an entry leads to.
enum Leads<'a> {
    Nowhere,
    Header(u32),
    Path(&'a [u8]),
    Device([u32; 2]),
}

fn leads_to<'a>(image: &'a [u8], header: &Header<'a>) -> Option<Leads<'a>> {
    Some(match header.file_type {
        FileType::HardLink => Leads::Header(header.info),
        FileType::Directory if header.is_dot() => Leads::Header(header.info),
        FileType::SymbolicLink => Leads::Path(header.content(image)?),
        FileType::BlockDevice | FileType::CharDevice => Leads::Device(header.device()),
        _ => Leads::Nowhere,
    })
}

/// The line of an entry.
fn line(entry: &Entry<'_>) -> String {
    let (path, header) = (shown(&entry.names), &entry.header);
    let leads = match &entry.leads {
        Leads::Nowhere => String::new(),
        Leads::Header(at) => format!(" -> header {at}"),
        Leads::Path(target) => format!(" -> {}", words::name(target)),
        Leads::Device([major, minor]) => format!(" {major},{minor}"),
    };
    let executable = if header.executable { 'x' } else { '-' };
    let (at, word, size) = (header.at, header.file_type.word(), header.size);
    format!("{at:>8} {executable} {word:<9} {size:>8} {path}{leads}\n")
}

/// The same for a program.
fn members(entry: &Entry<'_>) -> Members {
    let header = &entry.header;
    let facts: Members = vec![
        ("header", header.at.into()),
        ("executable", header.executable.into()),
        ("type", header.file_type.word().into()),
        ("size", header.size.into()),
        ("path", shown(&entry.names).into()),
    ];
    let leads: Members = match &entry.leads {
        Leads::Nowhere => Vec::new(),
        Leads::Header(at) => vec![("links_to", (*at).into())],
        Leads::Path(target) => vec![("target", Value::from(words::name(target)))],
        Leads::Device([major, minor]) => {
            vec![("major", (*major).into()), ("minor", (*minor).into())]
        }
    };
    facts.into_iter().chain(leads).collect()
}

/// Gives the content of the file that names lead to.
pub fn cat(path: &Path, names: &[Vec<u8>]) -> Outcome {
    let image = Image::load_rom(path)?;
    let found = content_at(&image.bytes, names);
    let (offset, length) = found.map_err(|(refusal, asked)| image.refused(refusal, asked))?;
    let content = image.bytes.get(offset as usize..).unwrap_or_default();
    let content = content.get(..length as usize);
    files::print(content.ok_or_else(|| unread(&image, offset))?)?;
    Ok(Vec::new())
}

/// Where the content lies, or the refusal with what was asked.
fn content_at<'a>(image: &[u8], names: &'a [Vec<u8>]) -> Result<(u32, u32), (Refusal, Asked<'a>)> {
    let mut at = ROOT;
    for name in names {
        let found = romfs::find(image, at, name);
        let found = found.map_err(|refusal| (refusal, Asked::Find(at, name)))?;
        let entry = romfs::entry(image, found);
        let entry = entry.map_err(|refusal| (refusal, Asked::Header(found)))?;
        at = if entry.file_type == HARD_LINK {
            entry.info
        } else {
            found
        };
    }
    romfs::content(image, at).map_err(|refusal| (refusal, Asked::Content(at)))
}

/// The failure that an accepted image cannot give.
fn unread(image: &Image, at: u32) -> Failure {
    image.unread(format!("cannot be read at {at}"))
}
