//! The commands on a volume's timing file. Each gives what goes to standard output.

use crate::failure::{Failure, Outcome};
use crate::files;
use crate::image::{Changing, Image};
use crate::json::Value;
use crate::numbers;
use crate::report::Form;
use crate::stores::Change;
use crate::survey::Asked;
use proved::timing::{self, VALUES};
use proved::{tfs, Refusal};
use std::ffi::OsStr;
use std::os::unix::ffi::OsStrExt;
use std::path::Path;

/// The name of the file.
pub const FILE: &[u8] = b"TIMING";

/// The number of bytes of the file: two numbers and the values.
pub const SIZE: usize = 4 + 4 + 2 * VALUES;

/// The number of values on a line.
const COLUMNS: usize = 7;

/// The greatest number of bytes that a file of values may have.
const LONGEST: usize = 1 << 16;

/// Whose values a command stores or asks for.
#[derive(Clone, Copy)]
pub struct Owner {
    pub board: u32,
    pub maker: u32,
}

/// Shows the file, whomever it belongs to.
pub fn show(path: &Path, form: Form) -> Outcome {
    let image = Image::load_volume(path)?;
    let bytes = content(&image.bytes).map_err(|refusal| image.refused(refusal, Asked::Lid))?;
    let [board, maker] = board_and_maker(&bytes);
    let values: Vec<u32> = bytes[8..].chunks(2).map(number).collect();
    let why = why_none(&bytes).map_or(String::new(), |why| format!(" ({why})"));
    Ok(form.told(
        || format!("board: {board}{why}\nmaker: {maker}\n{}", lines(&values)),
        || {
            let values: Value = values.iter().copied().collect();
            vec![
                ("board", board.into()),
                ("maker", maker.into()),
                ("values", values),
            ]
        },
    ))
}

/// The bytes of the file; refused as an opening of the lid is.
fn content(volume: &[u8]) -> Result<[u8; SIZE], Refusal> {
    timing::open_lid(&mut volume.to_vec())?;
    let mut bytes = [0; SIZE];
    tfs::read(volume, FILE, 0, &mut bytes)?;
    Ok(bytes)
}

/// The numbers in the file's bytes.
pub fn board_and_maker(bytes: &[u8; SIZE]) -> [u32; 2] {
    [0, 4].map(|at| number(&bytes[at..at + 4]))
}

/// Why the file's bytes have no values for any board, if they have none. A first store that is cut
/// off leaves zeros; an opening of the lid zeros the board number alone.
pub fn why_none(bytes: &[u8; SIZE]) -> Option<&'static str> {
    match board_and_maker(bytes) {
        [0, _] if *bytes == [0; SIZE] => Some("all its bytes are 0, no values were stored"),
        [0, _] => Some("the lid was opened"),
        _ => None,
    }
}

/// A big-endian number.
fn number(bytes: &[u8]) -> u32 {
    let shifted = |number, byte: &u8| number << 8 | u32::from(*byte);
    bytes.iter().fold(0, shifted)
}

/// Values as lines.
fn lines(values: &[u32]) -> String {
    let line = |line: &[u32]| {
        let cells: Vec<String> = line.iter().map(|value| format!("{value:>5}")).collect();
        cells.join(" ") + "\n"
    };
    values.chunks(COLUMNS).map(line).collect()
}

/// Stores the values that a host file has.
pub fn store(path: &Path, owner: Owner, host: &Path, in_place: bool) -> Outcome {
    let values = read_values(host)?;
    let Owner { board, maker } = owner;
    let mut changing = Changing::load(path, in_place)?;
    let stored = timing::store(&mut changing.image.bytes, board, maker, &values);
    stored.map_err(|refusal| changing.image.refused(refusal, Asked::Store(board)))?;
    changing.save(&[Change::StoreTiming(board, maker, &values)])?;
    Ok(Vec::new())
}

/// Notes that the lid was opened.
pub fn open_lid(path: &Path, in_place: bool) -> Outcome {
    let mut changing = Changing::load(path, in_place)?;
    let opened = timing::open_lid(&mut changing.image.bytes);
    opened.map_err(|refusal| changing.image.refused(refusal, Asked::Lid))?;
    changing.save(&[Change::OpenLid])?;
    Ok(Vec::new())
}

/// Gives the values as a boot gets them.
pub fn boot(path: &Path, owner: Owner, form: Form) -> Outcome {
    let image = Image::load_volume(path)?;
    let Owner { board, maker } = owner;
    let booted = timing::boot(&image.bytes, board, maker);
    let answer = booted.answer;
    answer.map_err(|refusal| image.refused(refusal, Asked::Boot(board, maker)))?;
    let values = booted.values.map(u32::from);
    Ok(form.told(
        || lines(&values),
        || vec![("values", values.into_iter().collect())],
    ))
}

/// Reads the values of a host file or of standard input.
fn read_values(host: &Path) -> Result<[u16; VALUES], Failure> {
    let text = files::read_at_most(host, LONGEST + 1)?;
    let values = match text.len() {
        0..=LONGEST => values(&text),
        _ => Err(format!(
            "over {LONGEST} bytes stand there, not {VALUES} values"
        )),
    };
    values.map_err(|why| Failure::Malformed(host.to_path_buf(), why))
}

/// The values of a text, or why it has none.
fn values(text: &[u8]) -> Result<[u16; VALUES], String> {
    let words = text.split(u8::is_ascii_whitespace);
    let mut values = Vec::new();
    for word in words.filter(|word| !word.is_empty()) {
        let number = numbers::number(OsStr::from_bytes(word)).ok();
        let value = number.and_then(|number| u16::try_from(number).ok());
        let bad = || format!("value {} is no number from 0 to 65535", values.len() + 1);
        values.push(value.ok_or_else(bad)?);
    }
    let fit = <[u16; VALUES]>::try_from(values);
    fit.map_err(|values| match values.len() {
        1 => format!("1 value stands there, not {VALUES}"),
        count => format!("{count} values stand there, not {VALUES}"),
    })
}
