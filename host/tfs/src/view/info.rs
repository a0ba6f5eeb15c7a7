//! What a volume has: its name, blocks, slots and files.

use super::View;
use crate::failure::{Failure, Outcome};
use crate::files;
use crate::json::{Members, Value};
use crate::report::{self, Form};
use crate::stores::BLOCK_SIZE;
use crate::survey::{Survey, Tally};
use crate::words;
use std::path::Path;

/// Tells what a volume has, a broken one too, as far as it can be read: the failure is told first.
pub fn info(path: &Path, form: Form) -> Outcome {
    let view = View::of(path)?;
    let facts = Facts {
        verdict: view.verdict(),
        length: view.image.length(),
        survey: view.survey(),
    };
    let failure = view.refused.map(|(_, failure)| failure);
    // Who reads this may wait for the image.
    drop(view.image);
    failure.iter().for_each(report::tell);
    let error = failure.as_ref().map(report::error);
    files::print(&form.told(|| facts.text(), || facts.members(error)))?;
    failure.map_or(Ok(Vec::new()), |failure| {
        Err(Failure::Told(failure.status()))
    })
}

struct Facts {
    /// The verdict of the library in words.
    verdict: String,
    /// The number of bytes of the image, unless it is a stream.
    length: Option<u64>,
    survey: Survey,
}

impl Facts {
    fn text(&self) -> String {
        let survey = &self.survey;
        let [blocks, slots] = [survey.block_tally(), survey.slot_tally()];
        let [used, free] = [blocks.used, blocks.free].map(|count| count * BLOCK_SIZE);
        let lines = [
            self.verdict.clone(),
            survey.note(),
            format!("volume name: {}", survey.label_shown()),
            format!("image: {}", self.length_shown()),
            format!("blocks: {}", counted(&blocks, "marked used and of no file")),
            format!("bytes: {used} used, {free} free"),
            format!("slots: {}", counted(&slots, "neither free nor used")),
            "slot inode  size blocks name".to_string(),
        ];
        let files = survey.taken().map(|slot| file(survey, slot));
        let lines = lines.into_iter().chain(files);
        lines.map(|line| line + "\n").collect()
    }

    fn length_shown(&self) -> String {
        match (self.length, self.behind()) {
            (Some(length), Some(behind)) => {
                let bytes = words::count(length, "byte");
                format!("{bytes}, {behind} behind the volume")
            }
            _ => "a stream".to_string(),
        }
    }

    /// The number of bytes that the image has behind its volume.
    fn behind(&self) -> Option<u64> {
        let volume = self.survey.blocks.len() * BLOCK_SIZE;
        self.length
            .map(|length| length.saturating_sub(volume as u64))
    }

    /// The same for a program.
    fn members(&self, error: Option<Members>) -> Members {
        let survey = &self.survey;
        let label = survey.label.as_ref().map(|label| words::name(label));
        let files = survey.taken().map(|slot| file_members(survey, slot));
        let mut members: Members = vec![
            ("consistent", error.is_none().into()),
            ("label", label.into()),
            ("length", self.length.into()),
            ("behind", self.behind().into()),
            ("block_size", BLOCK_SIZE.into()),
            ("blocks", tallied(&survey.block_tally()).into()),
            ("slots", tallied(&survey.slot_tally()).into()),
            ("files", files.collect()),
        ];
        members.extend(error.map(|error| ("error", error.into())));
        members
    }
}

/// Numbers on one line; that of the faulty ones only where there are some.
fn counted(tally: &Tally, faulty: &str) -> String {
    let Tally { all, used, free } = tally;
    match all - used - free {
        0 => format!("{all}, {used} used, {free} free"),
        others => format!("{all}, {used} used, {free} free, {others} {faulty}"),
    }
}

fn tallied(tally: &Tally) -> Members {
    vec![
        ("all", tally.all.into()),
        ("used", tally.used.into()),
        ("free", tally.free.into()),
    ]
}

fn file(survey: &Survey, slot: usize) -> String {
    let (inode, size) = (survey.slots[slot].number, survey.size_shown(slot));
    let (blocks, name) = (survey.blocks_of(slot), survey.name_shown(slot));
    format!("{slot:>4} {inode:>5} {size:>5} {blocks:>6} {name}")
}

fn file_members(survey: &Survey, slot: usize) -> Value {
    let found = &survey.slots[slot];
    let size = found.inode.as_ref().map(|inode| inode.size);
    let members: Members = vec![
        ("slot", slot.into()),
        ("inode", found.number.into()),
        ("size", size.into()),
        ("blocks", survey.blocks_of(slot).into()),
        ("name", found.shown().into()),
    ];
    members.into()
}
