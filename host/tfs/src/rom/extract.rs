//! The tree of an image as a folder of the host.
//!
//! Every name is new in a folder that this program has made, so no link of the image is ever
//! followed, and a name that stands twice is met as one that exists.

use super::walk::{FileType, Header, Walk};
use super::{accepted, room_for_paths, shown, unread};
use crate::extracted::{told, Called, Visited};
use crate::failure::{Failure, Outcome};
use crate::files;
use crate::image::Image;
use crate::progress::Progress;
use crate::report::Form;
use crate::words;
use std::collections::HashMap;
use std::ffi::OsStr;
use std::fs;
use std::io::{self, ErrorKind};
use std::os::unix::ffi::OsStrExt;
use std::os::unix::fs::symlink;
use std::path::{Path, PathBuf};

/// The longest name and the longest target of a symbolic link that the host can have.
const LONGEST_NAME: usize = 255;
const LONGEST_TARGET: usize = 4095;

/// Makes a folder with the tree of an image, and tells of each entry that is skipped.
pub fn extract(path: &Path, folder: &Path, form: Form) -> Outcome {
    let image = accepted(path)?;
    room_for_paths(path, &image)?;
    let what = format!("extracting {}", path.display());
    let visited = files::make_folder(folder, |inside| {
        let mut tree = Tree {
            image: &image,
            folder,
            inside,
            names: Vec::new(),
            targets: HashMap::new(),
            made: HashMap::new(),
            visited: Vec::new(),
            progress: Progress::new(&what, content_bytes(&image.bytes)),
        };
        tree.fill()?;
        Ok(tree.visited)
    })?;
    told(&visited, folder, form)
}

/// The number of bytes of all files and symbolic links; a hard link adds none.
fn content_bytes(image: &[u8]) -> u64 {
    let headers = Walk::new(image)
        .map_while(Result::ok)
        .map(|(_, header)| header);
    let has_content = |header: &Header<'_>| {
        matches!(
            header.file_type,
            FileType::RegularFile | FileType::SymbolicLink
        )
    };
    headers
        .filter(has_content)
        .map(|header| u64::from(header.size))
        .sum()
}

/// The names from the root list to an entry.
impl Called for Vec<&[u8]> {
    const MEMBER: &'static str = "path";

    fn line(&self) -> String {
        let names: Vec<String> = self.iter().map(|name| words::name(name)).collect();
        names.join("/")
    }

    fn escaped(&self) -> String {
        shown(self)
    }
}

struct Tree<'a, 'b> {
    image: &'a Image,
    /// The folder as it will be called.
    folder: &'b Path,
    /// The folder as it is called while it is filled.
    inside: &'b Path,
    /// The names from the root list to the current entry.
    names: Vec<&'a [u8]>,
    /// The headers that hard links lead to, each read once however many do.
    targets: HashMap<u32, Header<'a>>,
    /// Where the content of a header was written, for hard links to it.
    made: HashMap<u32, PathBuf>,
    /// What has become of the entries so far.
    visited: Vec<Visited<Vec<&'a [u8]>>>,
    progress: Progress,
}

impl<'a> Tree<'a, '_> {
    fn fill(&mut self) -> Result<(), Failure> {
        let mut walk = Walk::new(&self.image.bytes);
        while let Some(visited) = walk.next() {
            let (depth, header) = visited.map_err(|at| unread(self.image, at))?;
            self.names.truncate(depth - 1);
            self.names.push(header.name);
            // The host makes "." and ".." of a directory itself.
            if header.is_dot()
                && matches!(header.file_type, FileType::Directory | FileType::HardLink)
            {
                continue;
            }
            let skipped = self.place(&header)?;
            if skipped.is_some() {
                walk.skip_list(depth);
            }
            self.note(skipped)?;
        }
        Ok(())
    }

    /// Notes what has become of the current entry.
    fn note(&mut self, skipped: Option<String>) -> Result<(), Failure> {
        let room = process::tried(|| self.visited.try_reserve(1));
        room.map_err(|error| Failure::host(self.folder, io::Error::from(error)))?;
        let entry = self.names.clone();
        self.visited.push(Visited { entry, skipped });
        Ok(())
    }

    /// Makes the current entry, or gives the reason to skip it.
    fn place(&mut self, header: &Header<'a>) -> Result<Option<String>, Failure> {
        let meant = self.meant(header)?;
        if let Some(why) = self.obstacle(header, &meant) {
            return Ok(Some(why));
        }
        let path = self.below(self.inside);
        let made = match meant.file_type {
            FileType::Directory => fs::create_dir(path),
            _ => self.write(&meant, path),
        };
        match made {
            Err(error) if error.kind() == ErrorKind::AlreadyExists => {
                Ok(Some("the name stands already".to_string()))
            }
            Err(error) => Err(Failure::host(&self.below(self.folder), error)),
            Ok(()) => Ok(None),
        }
    }

    /// The header itself, or the one that a hard link leads to.
    fn meant(&mut self, header: &Header<'a>) -> Result<Header<'a>, Failure> {
        if header.file_type != FileType::HardLink {
            return Ok(*header);
        }
        if let Some(known) = self.targets.get(&header.info) {
            return Ok(*known);
        }
        let target = Header::read(&self.image.bytes, header.info);
        let target = target.ok_or_else(|| unread(self.image, header.at))?;
        let room = process::tried(|| self.targets.try_reserve(1));
        room.map_err(|error| Failure::host(self.folder, io::Error::from(error)))?;
        self.targets.insert(header.info, target);
        Ok(target)
    }

    /// Writes a file or a symbolic link, or links to where it was written before.
    fn write(&mut self, meant: &Header<'a>, path: PathBuf) -> io::Result<()> {
        if let Some(first) = self.made.get(&meant.at) {
            match fs::hard_link(first, &path) {
                // The host allows no more links to that file: this one becomes a copy.
                Err(error) if error.kind() == ErrorKind::TooManyLinks => {}
                linked => return linked,
            }
        }
        let content = self.content(meant)?;
        match meant.file_type {
            FileType::SymbolicLink => symlink(OsStr::from_bytes(content), &path)?,
            _ if meant.executable => files::fill_new(&path, content, 0o777)?,
            _ => files::fill_new(&path, content, 0o666)?,
        }
        process::tried(|| self.made.try_reserve(1))?;
        self.made.insert(meant.at, path);
        self.progress.add(content.len() as u64);
        Ok(())
    }

    fn content(&self, meant: &Header<'a>) -> io::Result<&'a [u8]> {
        let content = meant.content(&self.image.bytes);
        content.ok_or_else(|| io::Error::other("the content lies outside of the image"))
    }

    /// The path of the current entry below a folder.
    fn below(&self, folder: &Path) -> PathBuf {
        self.names.iter().fold(folder.to_path_buf(), |path, name| {
            path.join(OsStr::from_bytes(name))
        })
    }

    /// Why the host cannot have an entry, if it cannot.
    fn obstacle(&self, header: &Header<'a>, meant: &Header<'a>) -> Option<String> {
        match meant.file_type {
            _ if unfit_name(header).is_some() => unfit_name(header),
            FileType::Directory if header.file_type == FileType::HardLink => {
                Some("hard link to a directory".to_string())
            }
            FileType::SymbolicLink => self.content(meant).ok().and_then(unfit_target),
            FileType::BlockDevice | FileType::CharDevice => {
                let (word, [major, minor]) = (meant.file_type.word(), meant.device());
                Some(format!("{word} {major},{minor}"))
            }
            FileType::Socket | FileType::Fifo => Some(meant.file_type.word().to_string()),
            _ => None,
        }
    }
}

/// Why the host cannot have a file of this name, if it cannot.
fn unfit_name(header: &Header<'_>) -> Option<String> {
    let name = header.name;
    match name.len() {
        _ if header.is_dot() => Some("the host keeps this name for folders".to_string()),
        _ if name.contains(&b'/') => Some("a slash in the name".to_string()),
        0..=LONGEST_NAME => None,
        length => Some(format!("a name of {length} bytes, over {LONGEST_NAME}")),
    }
}

/// Why the host cannot have a symbolic link to this, if it cannot.
fn unfit_target(target: &[u8]) -> Option<String> {
    match target.len() {
        0 => Some("an empty target".to_string()),
        _ if target.contains(&0) => Some("a zero byte in the target".to_string()),
        1..=LONGEST_TARGET => None,
        length => Some(format!("a target of {length} bytes, over {LONGEST_TARGET}")),
    }
}

#[cfg(test)]
mod tests {
    use super::*;

    /// A header with a name of one letter, and up to 16 bytes of content behind it.
    fn entry(words: [u32; 3], name: u8, content: &[u8]) -> Vec<u8> {
        let words = words.into_iter().chain([0]).flat_map(u32::to_be_bytes);
        let mut bytes: Vec<u8> = words.chain([name]).collect();
        bytes.resize(32, 0);
        bytes.extend(content);
        bytes.resize(bytes.len().next_multiple_of(16), 0);
        bytes
    }

    #[test]
    fn only_what_is_written_is_counted() {
        let entries = [
            entry([80 | 2, 0, 5], b'a', b"12345"),
            entry([112, 32, 0], b'b', b""),
            entry([3, 0, 2], b'c', b"to"),
        ];
        let mut image = b"-rom1fs-\x00\x00\x00\xa0".to_vec();
        image.resize(32, 0);
        image.extend(entries.concat());
        assert_eq!(content_bytes(&image), 5 + 2);
    }
}
