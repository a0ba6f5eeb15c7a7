//! The blocks of a volume as a map: text, a picture, or a list for a program.

use super::members as fault_members;
use crate::failure::{Failure, Outcome};
use crate::files::{self, Stream, STANDARD};
use crate::image::Image;
use crate::json::{Members, Value};
use crate::report::Form;
use crate::survey::{self, map, Claim, Part, Survey};
use crate::words;
use std::env;
use std::io::{self, IsTerminal};
use std::path::Path;

/// The columns of a terminal that does not tell them.
const WIDTH: usize = 80;

/// How a map is drawn.
pub struct Drawing<'a> {
    /// The file of a picture, if one is asked for.
    pub svg: Option<&'a Path>,
    /// Whether a file that stands there is replaced.
    pub force: bool,
    /// Whether text is coloured also where it does not go to a terminal.
    pub colour: bool,
}

/// Draws the map of a volume, sound or damaged.
pub fn map(path: &Path, drawing: &Drawing<'_>, form: Form) -> Outcome {
    let image = Image::load_volume(path)?;
    let survey = survey::volume(&image.bytes);
    // Who reads the picture may wait for the image.
    drop(image);
    if let Some(svg) = drawing.svg {
        picture(&survey, path, svg, drawing.force, form)?;
        if !form.is_json() {
            return Ok(Vec::new());
        }
    }
    let colour = drawing.colour || (io::stdout().is_terminal() && may_colour());
    Ok(form.told(|| map::text(&survey, width(), colour), || members(&survey)))
}

/// Whether this person lets terminals be coloured.
fn may_colour() -> bool {
    env::var_os("NO_COLOR").is_none_or(|value| value.is_empty())
}

/// The columns of the terminal.
fn width() -> usize {
    let columns = env::var("COLUMNS").ok();
    let columns = columns.and_then(|columns| columns.parse().ok());
    columns.unwrap_or(WIDTH)
}

/// Writes the picture to a file or a stream.
fn picture(
    survey: &Survey,
    path: &Path,
    to: &Path,
    force: bool,
    form: Form,
) -> Result<(), Failure> {
    let title = Path::new(path.file_name().unwrap_or(path.as_os_str()));
    let picture = map::svg(survey, &title.display().to_string()).into_bytes();
    if to != Path::new(STANDARD) {
        files::apart(to, path, "the image")?;
    }
    match Stream::at(to) {
        Some(_) if form.is_json() => {
            let why = "map: --json may be mixed with the picture on a stream; give a plain file";
            Err(Failure::Usage(why.to_string()))
        }
        Some(stream) => stream.write(&picture),
        None => files::write_if(to, &picture, force),
    }
}

/// What a program is told: the blocks, and all faults.
fn members(survey: &Survey) -> Members {
    let faults = survey.faults();
    let mut of_blocks = vec![Vec::new(); survey.blocks.len()];
    for fault in faults
        .iter()
        .filter(|fault| fault.number >= map::FIRST_OF_BLOCKS)
    {
        of_blocks[fault.place as usize].push(fault.cause.as_str());
    }
    let blocks = of_blocks.iter().enumerate();
    let blocks = blocks.map(|(number, faults)| block(survey, number, faults));
    let label = survey.label.as_ref().map(|label| words::name(label));
    vec![
        ("label", label.into()),
        ("blocks", blocks.collect()),
        ("faults", faults.iter().map(fault_members).collect()),
    ]
}

fn block(survey: &Survey, number: usize, faults: &[&str]) -> Value {
    let claims = survey.blocks[number].claims.iter();
    let members: Members = vec![
        ("number", number.into()),
        ("kind", survey.kind(number).into()),
        ("files", claims.map(|claim| owner(survey, claim)).collect()),
        ("faults", faults.iter().copied().collect()),
    ];
    members.into()
}

/// A file that has a block, and which content block of its own that is.
fn owner(survey: &Survey, claim: &Claim) -> Value {
    let content = match claim.part {
        Part::Inode => None,
        Part::Content(index) => Some(index),
    };
    let members: Members = vec![
        ("slot", claim.slot.into()),
        ("name", survey.slots[claim.slot].shown().into()),
        ("content", content.into()),
    ];
    members.into()
}
