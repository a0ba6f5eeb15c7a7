//! The one cause of a refusal, found from the image and what was asked of it.

mod rom;
mod timing;

use super::{blocks_for, volume, Slot, State, Survey, LARGEST_FILE, SLOTS};
use crate::words;
use proved::Refusal;

/// What a refused request was given besides the image.
#[derive(Clone, Copy, Debug)]
pub enum Asked<'a> {
    /// Nothing: check, free bytes, mend, and the check of a romfs image.
    Check,
    /// A volume's name: format.
    Label(&'a [u8]),
    /// A name: remove.
    Name(&'a [u8]),
    /// A name and a size: create.
    Create(&'a [u8], u32),
    /// A name and an offset: read, write.
    At(&'a [u8], u32),
    /// A slot: list.
    Slot(u32),
    /// Nothing, of the timing file: show, open-lid.
    Lid,
    /// A board number: the store of the timing file.
    Store(u32),
    /// A board number and a maker number: the boot by the timing file.
    Boot(u32, u32),
    /// A directory of a romfs image, by its header or 0 for the root, and a name: find.
    Find(u32, &'a [u8]),
    /// A header of a romfs image: entry.
    Header(u32),
    /// A header of a romfs image: content.
    Content(u32),
}

/// A refusal in the words of its cause. Image and request are those that were refused; where they
/// do not show the cause, the words are those of the rule.
pub fn cause(image: &[u8], refusal: Refusal, asked: Asked<'_>) -> String {
    let cause = match refusal.number {
        1..=7 => of_volume(image, refusal),
        8..=15 | 34..=37 => of_request(image, refusal.number, asked),
        21..=31 => rom::cause(image, refusal, asked),
        _ => None,
    };
    cause.unwrap_or_else(|| words::refusal(refusal))
}

/// The cause that the library's verdict on a volume has in this tool's reading.
fn of_volume(image: &[u8], refusal: Refusal) -> Option<String> {
    let mut faults = volume(image).faults().into_iter();
    let refused = |number, place| Refusal { number, place } == refusal;
    let fault = faults.find(|fault| refused(fault.number, fault.place));
    fault.map(|fault| fault.cause)
}

/// The cause of a refusal by a consistent volume, where it holds.
fn of_request(image: &[u8], number: u32, asked: Asked<'_>) -> Option<String> {
    let survey = volume(image);
    match (number, asked) {
        (8, Asked::Label([])) => None,
        (8, Asked::Label(name) | Asked::Name(name)) => bad_name(name),
        (8, Asked::Create(name, _) | Asked::At(name, _)) => bad_name(name),
        (9, Asked::Create(_, size)) => too_large(size),
        (10, Asked::Create(name, _)) => survey.stands(name),
        (11, _) => survey.no_slot(),
        (12, Asked::Create(_, size)) => survey.no_room(size),
        (13, Asked::Name(name) | Asked::At(name, _)) => survey.missing(name),
        (14, Asked::Slot(slot)) => no_such_slot(slot),
        (15, Asked::At(name, offset)) => survey.behind(name, offset),
        _ => timing::cause(image, &survey, number, asked),
    }
}

fn bad_name(name: &[u8]) -> Option<String> {
    match name.len() {
        0 => Some("the name is empty".to_string()),
        1..=15 => name
            .contains(&0)
            .then(|| "the name has a zero byte in it".to_string()),
        length => Some(format!(
            "the name is {length} bytes long, at most 15 are allowed"
        )),
    }
}

fn too_large(size: u32) -> Option<String> {
    let cause = || format!("the size is over {LARGEST_FILE} bytes, the most that a file may have");
    (size > LARGEST_FILE).then(cause)
}

fn no_such_slot(slot: u32) -> Option<String> {
    let last = SLOTS - 1;
    (slot as usize > last).then(|| format!("there is no slot {slot}, the last is {last}"))
}

impl Survey {
    /// The slot that a name stands in.
    fn slot_of(&self, name: &[u8]) -> Option<usize> {
        let has_it = |slot: &Slot| slot.name.as_deref() == Some(name);
        self.slots.iter().position(has_it)
    }

    fn stands(&self, name: &[u8]) -> Option<String> {
        let slot = self.slot_of(name)?;
        let name = words::name(name);
        Some(format!("{name} stands already, in slot {slot}"))
    }

    fn missing(&self, name: &[u8]) -> Option<String> {
        let missing = self.slot_of(name).is_none();
        missing.then(|| format!("no file has the name {}", words::name(name)))
    }

    fn no_slot(&self) -> Option<String> {
        let mut slots = self.slots.iter();
        let full = slots.all(|slot| slot.state() != State::Free);
        full.then(|| format!("all {SLOTS} slots have a file"))
    }

    fn no_room(&self, size: u32) -> Option<String> {
        let needed = 1 + blocks_for(size);
        let free = self.blocks.iter().filter(|block| !block.marked).count();
        (free < needed)
            .then(|| format!("too few free blocks: {needed} needed with the inode, {free} free"))
    }

    fn behind(&self, name: &[u8], offset: u32) -> Option<String> {
        let size = self.slots[self.slot_of(name)?].inode.as_ref()?.size;
        let (name, bytes) = (words::name(name), words::count(size, "byte"));
        (offset > size)
            .then(|| format!("offset {offset} is behind the end of {name}, which has {bytes}"))
    }
}

#[cfg(test)]
mod tests;
