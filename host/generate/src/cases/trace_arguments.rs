//! Arguments of replay.

use reference::request::Arguments;

use crate::tfs::Volume;
use crate::traces::{any_trace, Plan};
use crate::Random;

/// Draws a trace for a volume, to be replayed.
pub fn trace_arguments(random: &mut Random, made: &Volume) -> Arguments {
    let plan = Plan::small(random);
    Arguments {
        buffer: any_trace(random, made, plan),
        ..Arguments::default()
    }
}
