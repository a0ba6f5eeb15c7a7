//! The commands on traces. Each gives what goes to standard output.

mod lines;
mod members;
mod session;

use crate::failure::{Failure, Outcome};
use crate::files::{self, STANDARD};
use crate::image::Image;
use crate::report::Form;
use crate::survey::Asked;
use proved::trace::{self, Record, Replayed};
use proved::Refusal;
use std::io;
use std::path::Path;

pub use session::{Content, Session};

/// The greatest number of bytes that a record has besides its name and its bytes. It is that of a
/// granted read or write: one byte each for the kind and for the refusal, which is 0, and up to
/// five each for four numbers (two lengths and the offset; of a read the buffer's length too, of a
/// write the count).
const NUMBERS: usize = 2 + 4 * 5;

/// The greatest number of characters of a request or an answer in a message.
const SHOWN: usize = 160;

/// The memory that a byte of a record may take in its line or object while that is put together,
/// and a byte of a line in its words.
const LINE_OF_BYTE: usize = 16;
const WORDS_OF_BYTE: usize = 64;

/// Adds a record to a trace.
fn append(trace: &mut Vec<u8>, record: &Record<'_>) -> Result<(), Refusal> {
    let start = trace.len();
    trace.resize(start + NUMBERS + record.name.len() + record.bytes.len(), 0);
    let written = trace::write(&mut trace[start..], record);
    trace.truncate(start + written.unwrap_or(0));
    written.map(drop)
}

/// The number of bytes of a record that its line shows.
fn shown_bytes(record: &Record<'_>) -> usize {
    record.name.len() + record.bytes.len()
}

/// Fails where there is no memory for the line of a record.
fn room_for_line(path: &Path, record: &Record<'_>) -> Result<(), Failure> {
    files::room_for(path, LINE_OF_BYTE * shown_bytes(record))
}

/// The records of a trace, each with its position, up to the first malformed one.
fn records(bytes: &[u8]) -> impl Iterator<Item = (usize, Record<'_>)> {
    let mut at = 0;
    std::iter::from_fn(move || {
        let (record, next) = trace::read(bytes, at)?;
        Some((std::mem::replace(&mut at, next), record))
    })
}

/// The failure of a trace that does not end behind its last record, if it does not.
fn malformed(path: &Path, bytes: &[u8]) -> Option<Failure> {
    let (mut count, mut at) = (0, 0);
    while let Some((_, next)) = trace::read(bytes, at) {
        (count, at) = (count + 1, next);
    }
    let message = || format!("record {} at byte {at} is malformed", count + 1);
    (at < bytes.len()).then(|| Failure::Malformed(path.to_path_buf(), message()))
}

/// Shows a trace as lines; those before a malformed record stand before the failure.
pub fn show(path: &Path, form: Form) -> Outcome {
    let bytes = files::read(path)?;
    let records = || records(&bytes).map(|(_, record)| record);
    if let Some(longest) = records().max_by_key(shown_bytes) {
        room_for_line(path, &longest)?;
    }
    match malformed(path, &bytes) {
        Some(failure) if form.is_json() => Err(failure),
        failure => {
            let line = |record: &Record<'_>| lines::line(record) + "\n";
            form.print_list("records", records(), line, members::of)?;
            failure.map_or(Ok(Vec::new()), Err)
        }
    }
}

/// Makes a trace of lines.
pub fn make(lines: &Path, path: &Path, force: bool) -> Outcome {
    if path == Path::new(STANDARD) {
        let message = "trace make: -: the trace needs a file";
        return Err(Failure::Usage(message.to_string()));
    }
    if lines != Path::new(STANDARD) {
        files::apart(path, lines, "the file of the lines")?;
    }
    let text = files::read_or_standard(lines)?;
    let mut trace = Vec::new();
    // A record is no longer than its line.
    let room = process::tried(|| trace.try_reserve_exact(text.len() + NUMBERS));
    room.map_err(|error| Failure::host(lines, io::Error::from(error)))?;
    for (index, line) in text.split(|&byte| byte == b'\n').enumerate() {
        files::room_for(lines, WORDS_OF_BYTE * line.len())?;
        let read = lines::add(&mut trace, line);
        let failed =
            |why| Failure::Malformed(lines.to_path_buf(), format!("line {}: {why}", index + 1));
        read.map_err(failed)?;
    }
    files::write_if(path, &trace, force)?;
    Ok(Vec::new())
}

/// A file that the copy of an image is kept in.
pub struct Kept<'a> {
    pub path: &'a Path,
    /// Whether a file that stands there is replaced.
    pub force: bool,
}

/// Replays a trace on a copy of an image, which may be kept.
pub fn replay(path: &Path, trace_path: &Path, kept: Option<&Kept<'_>>, form: Form) -> Outcome {
    if let Some(Kept { path: out, .. }) = kept {
        files::apart(out, path, "the image")?;
        files::apart(out, trace_path, "the trace")?;
    }
    let image = Image::load_volume(path)?;
    let trace = files::read(trace_path)?;
    let mut volume = image.bytes.clone();
    let replayed = trace::replay(&mut volume, &trace)
        .map_err(|refusal| image.refused(refusal, Asked::Check))?;
    if let Some(Kept { path: out, force }) = kept {
        files::write_by(out, *force, |to| image.write_with(&volume, to))?;
    }
    match replayed {
        Replayed::All(count) => Ok(form.told(
            || format!("records replayed: {count}\n"),
            || vec![("replayed", count.into())],
        )),
        Replayed::Malformed(number) => {
            let at = start(&trace, number);
            let message = format!("record {number} at byte {at} is malformed");
            Err(Failure::Malformed(trace_path.to_path_buf(), message))
        }
        Replayed::Differs(number) => {
            let message = difference(image.bytes, trace_path, &trace, number)?;
            Err(Failure::Differs(trace_path.to_path_buf(), message))
        }
    }
}

/// Where the record of a number starts.
fn start(trace: &[u8], number: u64) -> usize {
    let mut at = 0;
    for _ in 1..number {
        at = trace::read(trace, at).map_or(at, |(_, next)| next);
    }
    at
}

/// What a record expects and what the volume answers, after the records before it.
fn difference(
    mut volume: Vec<u8>,
    path: &Path,
    trace: &[u8],
    number: u64,
) -> Result<String, Failure> {
    let at = start(trace, number);
    let mut session = Session::default();
    // The records before this one are replayed as they were.
    let _ = trace::replay(&mut volume, &trace[..at]);
    let Some((record, _)) = trace::read(trace, at) else {
        return Ok(format!("record {number} differs"));
    };
    room_for_line(path, &record)?;
    session.ask(&mut volume, &record);
    let answers = records(session.trace()).map(|(_, record)| cut(lines::answer(&record)));
    let answered: String = answers.collect();
    let why = match session.cause() {
        "" => String::new(),
        cause => format!(": {cause}"),
    };
    let (asked, expected) = (cut(lines::asked(&record)), cut(lines::answer(&record)));
    Ok(format!(
        "record {number} differs: expected {asked} -> {expected}; answered {answered}{why}"
    ))
}

/// A text of some length at most, which tells what is left out.
fn cut(text: String) -> String {
    match text.char_indices().nth(SHOWN) {
        Some((end, _)) => format!("{}... ({} characters)", &text[..end], text.len()),
        None => text,
    }
}
