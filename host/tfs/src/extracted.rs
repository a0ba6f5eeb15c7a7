//! What is told of the entries of an image that became a folder of the host.

use crate::failure::{Failure, Outcome};
use crate::json::Members;
use crate::report::Form;
use std::io::{self, BufWriter, Write};
use std::path::Path;

/// How an entry is called.
pub trait Called {
    /// The member of an object that has it.
    const MEMBER: &'static str;

    /// As a person reads it.
    fn line(&self) -> String;

    /// As a program can give it back.
    fn escaped(&self) -> String;
}

/// An entry that was made or skipped.
pub struct Visited<C> {
    pub entry: C,
    /// Why it was skipped, if it was.
    pub skipped: Option<String>,
}

impl<C: Called> Visited<C> {
    /// What a program is told of an entry that was skipped.
    fn members(&self) -> Option<Members> {
        let why = self.skipped.as_deref()?;
        let entry = self.entry.escaped();
        Some(vec![(C::MEMBER, entry.into()), ("why", why.into())])
    }
}

/// Tells of the entries that were skipped, and a program of those that were made, too.
pub fn told<C: Called>(visited: &[Visited<C>], folder: &Path, form: Form) -> Outcome {
    let made = || visited.iter().filter(|visited| visited.skipped.is_none());
    let failure = match visited.len() - made().count() {
        0 => None,
        count => Some(Failure::Skipped(folder.to_path_buf(), count)),
    };
    // Where this fails, the exit status still tells that something was skipped.
    let _ = tell_skipped(visited);
    if form.is_json() {
        form.print_object(|object| {
            object.list("extracted", made().map(|made| made.entry.escaped()))?;
            object.list("skipped", visited.iter().filter_map(Visited::members))?;
            failure.iter().try_for_each(|failure| object.error(failure))
        })?;
    }
    failure.map_or(Ok(Vec::new()), Err)
}

/// Tells on standard error of the entries that were skipped.
fn tell_skipped<C: Called>(visited: &[Visited<C>]) -> io::Result<()> {
    let mut out = BufWriter::new(io::stderr().lock());
    for Visited { entry, skipped } in visited {
        if let Some(why) = skipped {
            writeln!(out, "skipped {}: {why}", entry.line())?;
        }
    }
    out.flush()
}
