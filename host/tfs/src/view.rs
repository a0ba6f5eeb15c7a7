//! The commands that show a volume: the library's verdict on it, and what this tool reads itself.

mod check;
mod info;
mod map;

pub use check::check;
pub use info::info;
pub use map::{map, Drawing};

use crate::failure::Failure;
use crate::image::Image;
use crate::json::Members;
use crate::report;
use crate::survey::{self, Asked, Fault, Survey};
use proved::{tfs, Refusal};
use std::path::Path;

/// A volume as the library and as this tool sees it.
struct View {
    image: Image,
    /// The refusal by the library's check, and the same as a failure.
    refused: Option<(Refusal, Failure)>,
}

impl View {
    fn of(path: &Path) -> Result<Self, Failure> {
        let image = Image::load_volume(path)?;
        let refusal = tfs::check(&image.bytes).err();
        let refused = refusal.map(|refusal| (refusal, image.refused(refusal, Asked::Check)));
        Ok(Self { image, refused })
    }

    fn survey(&self) -> Survey {
        survey::volume(&self.image.bytes)
    }

    fn verdict(&self) -> String {
        match &self.refused {
            None => "verdict of the library: consistent".to_string(),
            Some((refusal, _)) => format!("verdict of the library: refused {}", refusal.number),
        }
    }
}

/// What a program is told of a fault.
fn members(fault: &Fault) -> Members {
    let (number, place) = (fault.number, fault.place);
    let mut members = report::rule(Refusal { number, place });
    members.push(("message", fault.cause.as_str().into()));
    members
}
