//! The commands that move content between a volume and host files. Each gives what goes to standard
//! output.

mod build;
mod extract;
mod get;
mod put;
mod stand;

use crate::failure::Failure;
use crate::json::Members;
use crate::report::Form;
use crate::words;
use proved::Refusal;
use std::ffi::OsStr;
use std::os::unix::ffi::OsStrExt;
use std::path::Path;

pub use build::{build, Build};
pub use extract::extract;
pub use get::{get, get_all, Get, GetAll};
pub use put::{put, Put};
pub use stand::{create, remove, Create};

/// Makes a request for each of some files; where one is refused, tells which.
fn each<'a, T, R>(
    files: &'a [T],
    mut request: impl FnMut(&'a T) -> Result<R, Refusal>,
) -> Result<Vec<R>, (&'a T, Refusal)> {
    let answer = |file| request(file).map_err(|refusal| (file, refusal));
    files.iter().map(answer).collect()
}

/// A failure at the name of a file, which is told where there are several.
fn among(several: bool, name: &[u8], failure: Failure) -> Failure {
    match several {
        true => failure.at_name(name),
        false => failure,
    }
}

/// Fails where a name is given twice.
fn distinct<'a>(command: &str, names: impl Iterator<Item = &'a [u8]>) -> Result<(), Failure> {
    let mut names: Vec<&[u8]> = names.collect();
    names.sort();
    match names.windows(2).find(|pair| pair[0] == pair[1]) {
        None => Ok(()),
        Some(pair) => {
            let name = words::name(pair[0]);
            Err(Failure::Usage(format!("{command}: {name} is given twice")))
        }
    }
}

/// A name as that of a host file, if it can be one.
fn host_name(name: &[u8]) -> Option<&Path> {
    let host = Path::new(OsStr::from_bytes(name));
    let whole = host.file_name().map(OsStr::as_bytes) == Some(name);
    whole.then_some(host)
}

/// A file whose bytes were put or got.
struct Moved<'a> {
    name: &'a [u8],
    size: usize,
    blocks: u32,
}

impl Moved<'_> {
    fn members(&self) -> Members {
        vec![
            ("name", words::name(self.name).into()),
            ("size", self.size.into()),
            ("blocks", self.blocks.into()),
        ]
    }
}

/// The line of the number of content blocks, where it is asked for.
fn blocks_line(asked: bool, moved: &[Moved<'_>]) -> String {
    let blocks: u32 = moved.iter().map(|file| file.blocks).sum();
    match asked {
        true => format!("content blocks: {blocks}\n"),
        false => String::new(),
    }
}

/// What is told of files that were put or got; of several a program gets a list.
fn told(form: Form, asked: bool, moved: &[Moved<'_>], several: bool) -> Vec<u8> {
    let members = || match (moved, several) {
        ([file], false) => file.members(),
        _ => vec![("files", moved.iter().map(Moved::members).collect())],
    };
    form.told(|| blocks_line(asked, moved), members)
}
