//! What a command tells: lines for a person, or one JSON object for a program.

use crate::failure::{Failure, Outcome};
use crate::files;
use crate::json::{Members, Value};
use crate::words;
use proved::Refusal;
use std::io::{self, BufWriter, StdoutLock, Write};

/// The number of the objects' shape. It rises where a member goes or changes its meaning.
const SHAPE: u32 = 1;

/// How a command tells what it has found.
#[derive(Clone, Copy)]
pub struct Form {
    command: &'static str,
    json: bool,
}

impl Form {
    /// The form for a command.
    pub fn new(command: &'static str, json: bool) -> Self {
        Self { command, json }
    }

    /// Whether a program reads it.
    pub fn is_json(self) -> bool {
        self.json
    }

    /// What a command gives for standard output: text, or an object with these members.
    pub fn told(self, text: impl FnOnce() -> String, members: impl FnOnce() -> Members) -> Vec<u8> {
        match self.json {
            true => self.object(members()),
            false => text().into_bytes(),
        }
    }

    /// Prints a list of any length: its lines, or an object with the list as this member.
    pub fn print_list<T>(
        self,
        name: &str,
        mut items: impl Iterator<Item = T>,
        line: impl Fn(&T) -> String,
        members: impl Fn(&T) -> Members,
    ) -> Outcome {
        if self.json {
            let items = items.map(|item| members(&item));
            return self.print_object(|object| object.list(name, items));
        }
        let mut out = BufWriter::new(files::output()?);
        let printed = items.try_for_each(|item| out.write_all(line(&item).as_bytes()));
        ended(printed, out)
    }

    /// Prints an object with the members that `fill` writes.
    pub fn print_object(self, fill: impl FnOnce(&mut Object) -> io::Result<()>) -> Outcome {
        let mut object = Object(BufWriter::new(files::output()?));
        let command = Value::from(self.command);
        let printed = write!(object.0, "{{\"tfs\":{SHAPE},\"command\":{command}")
            .and_then(|()| fill(&mut object))
            .and_then(|()| object.0.write_all(b"}\n"));
        ended(printed, object.0)
    }

    /// What a failure adds on standard output to the line on standard error. Nothing, where standard
    /// output itself has failed, or the command has printed an object with it.
    pub fn failure(self, failure: &Failure) -> Vec<u8> {
        match failure {
            Failure::Closed | Failure::NoOutput | Failure::Output(_) => Vec::new(),
            Failure::Skipped(..) | Failure::Told(_) => Vec::new(),
            _ if !self.json => Vec::new(),
            _ => self.object(vec![("error", error(failure).into())]),
        }
    }

    fn object(self, members: Members) -> Vec<u8> {
        let head: Members = vec![("tfs", SHAPE.into()), ("command", self.command.into())];
        let object = Value::Object(head.into_iter().chain(members).collect());
        format!("{object}\n").into_bytes()
    }
}

/// An object that is printed member by member.
pub struct Object(BufWriter<StdoutLock<'static>>);

impl Object {
    /// Prints a list, of which one item is held at a time.
    pub fn list<T: Into<Value>>(
        &mut self,
        name: &str,
        items: impl Iterator<Item = T>,
    ) -> io::Result<()> {
        write!(self.0, ",\"{name}\":[")?;
        for (index, item) in items.enumerate() {
            let comma = if index == 0 { "" } else { "," };
            write!(self.0, "{comma}{}", item.into())?;
        }
        self.0.write_all(b"]")
    }

    /// Prints why the command has not done all.
    pub fn error(&mut self, failure: &Failure) -> io::Result<()> {
        let error = Value::from(error(failure));
        write!(self.0, ",\"error\":{error}")
    }
}

/// What a command gives that has printed all, or has failed to.
fn ended(printed: io::Result<()>, mut out: impl Write) -> Outcome {
    let printed = printed.and_then(|()| out.flush());
    printed.map_err(Failure::output).map(|()| Vec::new())
}

/// Tells of a failure on standard error. Where that is closed, the exit status still tells it.
pub fn tell(failure: &Failure) {
    let _ = writeln!(io::stderr(), "tfs: {}", line(failure));
}

/// A failure on one line.
fn line(failure: &Failure) -> String {
    failure.to_string().replace(char::is_control, "?")
}

/// The members of a failure: of a refusal its number and place, too, and the name among several.
pub fn error(failure: &Failure) -> Members {
    let mut members: Members = vec![("status", u32::from(failure.status()).into())];
    if let Failure::Refused { name, refusal, .. } = failure {
        members.extend(rule(*refusal));
        let name = name.as_ref().map(|name| words::name(name));
        members.extend(name.map(|name| ("name", name.into())));
    }
    members.push(("message", line(failure).into()));
    members
}

/// The number of a refusal, and its place, if it has one.
pub fn rule(refusal: Refusal) -> Members {
    let Refusal { number, place } = refusal;
    let placed = matches!(number, 4..=7 | 26..=29);
    let place = placed.then(|| ("place", place.into()));
    [("refusal", number.into())]
        .into_iter()
        .chain(place)
        .collect()
}
