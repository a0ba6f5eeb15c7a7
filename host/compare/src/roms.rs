//! Sequences of requests on romfs images.

use generate::cases::romfs_arguments;
use reference::request::{Arguments, Request};

use crate::comparison::{Comparison, Stop};
use crate::drawn_roms::{any_image, thin};

const OTHERS: [Request; 4] = [
    Request::RomFind,
    Request::RomFind,
    Request::RomEntry,
    Request::RomContent,
];

/// Draws an image and makes a sequence of requests on it.
pub(crate) fn on_next(comparison: &mut Comparison) -> Result<(), Stop> {
    let (mut made, image) = any_image(&mut comparison.random);
    thin(&mut comparison.random, &mut made);
    let mut pair = comparison.pair(&image);
    let checked = comparison.ask(&mut pair, Request::RomCheck, &Arguments::default())?;
    let others = match checked.refusal() {
        0 => 12,
        _ => comparison.random.below(4),
    };
    for _ in 0..others {
        let request = comparison.random.pick(&OTHERS);
        let mut arguments = romfs_arguments(&mut comparison.random, &made, &image, request);
        if comparison.random.one_in(16) {
            arguments.number = comparison.random.word() >> comparison.random.below(32);
        }
        comparison.ask(&mut pair, request, &arguments)?;
    }
    Ok(())
}
