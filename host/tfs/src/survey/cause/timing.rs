//! The causes of refusals with the timing file of a consistent volume.

use super::Asked;
use crate::survey::Survey;
use crate::timing::{board_and_maker, why_none, FILE, SIZE};
use crate::words;
use proved::tfs;

/// The cause of a refusal, where it holds.
pub fn cause(image: &[u8], survey: &Survey, number: u32, asked: Asked<'_>) -> Option<String> {
    match (number, asked) {
        (12, Asked::Store(_)) => survey.no_room(SIZE as u32),
        (13, Asked::Lid | Asked::Boot(..)) => absent(survey),
        (34, Asked::Store(0)) => Some("board number 0 cannot be stored".to_string()),
        (34, Asked::Boot(..)) => no_board(image),
        (35, Asked::Lid | Asked::Store(_) | Asked::Boot(..)) => other_size(survey),
        (36 | 37, Asked::Boot(board, maker)) => others(image, number, [board, maker]),
        _ => None,
    }
}

fn absent(survey: &Survey) -> Option<String> {
    let absent = survey.slot_of(FILE).is_none();
    absent.then(|| "there is no timing file (TIMING)".to_string())
}

fn other_size(survey: &Survey) -> Option<String> {
    let slot = &survey.slots[survey.slot_of(FILE)?];
    let size = slot.inode.as_ref()?.size;
    let bytes = words::count(size, "byte");
    (size as usize != SIZE).then(|| format!("the timing file has {bytes}, not {SIZE}"))
}

fn no_board(image: &[u8]) -> Option<String> {
    let bytes = content(image)?;
    let why = why_none(&bytes)?;
    Some(format!("the timing file has board number 0: {why}"))
}

/// That the file is of another board, which is asked for before the maker.
fn others(image: &[u8], number: u32, asked: [u32; 2]) -> Option<String> {
    let found = board_and_maker(&content(image)?);
    let (what, index) = match number {
        36 => ("board", 0),
        _ => ("memory maker", 1),
    };
    let (found, asked) = (found[index], asked[index]);
    (found != asked).then(|| format!("the timing file is of {what} {found}, not {asked}"))
}

fn content(image: &[u8]) -> Option<[u8; SIZE]> {
    let mut bytes = [0; SIZE];
    let read = tfs::read(image, FILE, 0, &mut bytes).ok()?;
    (read.count as usize == SIZE).then_some(bytes)
}

#[cfg(test)]
mod tests;
