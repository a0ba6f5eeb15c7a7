//! Images one after another, until a limit is reached or the two programs differ.

use std::time::Instant;

use generate::Random;

use crate::comparison::{Comparison, Stop};
use crate::pair::{Difference, Side};
use crate::tally::Tally;
use crate::{cuts, roms, traces, volumes};

/// What to draw, and when to stop.
#[derive(Clone, Copy, Debug)]
pub struct Limits {
    /// The seed of everything that is drawn.
    pub seed: u64,
    /// The first image.
    pub first: u64,
    /// The number of images.
    pub images: u64,
    /// The number of requests.
    pub requests: u64,
    /// No new image is begun after this.
    pub until: Option<Instant>,
    /// Whether TFS volumes are drawn.
    pub tfs: bool,
    /// Whether romfs images are drawn.
    pub romfs: bool,
}

/// A difference, and where it was found.
#[derive(Clone, Debug)]
pub struct Found {
    /// The number of the image.
    pub image: u64,
    /// The number of the request on that image, from 1.
    pub request: u64,
    /// What differs.
    pub difference: Box<Difference>,
}

/// Compares two programs until a limit is reached or they differ.
pub fn run(limits: Limits, sides: [Side; 2]) -> (Tally, Option<Found>) {
    let mut comparison = Comparison::new(sides, limits.requests);
    for image in limits.first..limits.first.saturating_add(limits.images) {
        if limits.until.is_some_and(|until| Instant::now() >= until) {
            break;
        }
        let before = comparison.tally.requests();
        match on_image(&mut comparison, &limits, image) {
            Ok(()) => {}
            Err(Stop::Enough) => break,
            Err(Stop::Differs(difference)) => {
                // A request that breaks a promise is counted by then, one that differs is not.
                let uncounted = u64::from(difference.broken.is_none());
                let found = Found {
                    image,
                    request: comparison.tally.requests() - before + uncounted,
                    difference,
                };
                return (comparison.tally, Some(found));
            }
        }
    }
    (comparison.tally, None)
}

/// Makes the sequence of requests on the image of a number.
fn on_image(comparison: &mut Comparison, limits: &Limits, image: u64) -> Result<(), Stop> {
    comparison.random = Random::new(limits.seed.wrapping_mul(0x9E37_79B9_7F4A_7C15) ^ image);
    // A volume, a cut or a trace has about ten times as many requests as a romfs image.
    match (limits.tfs, limits.romfs) {
        (true, true) if image % 20 == 5 => traces::on_next(comparison),
        (true, true) if image % 20 == 15 => cuts::on_next(comparison),
        (true, true) if image.is_multiple_of(10) => volumes::on_next(comparison),
        (true, false) if image % 4 == 3 => traces::on_next(comparison),
        (true, false) if image % 4 == 1 => cuts::on_next(comparison),
        (true, false) => volumes::on_next(comparison),
        _ => roms::on_next(comparison),
    }
}
