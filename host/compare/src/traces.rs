//! Records of a trace read and written, and the trace replayed.

use generate::tfs::{any_volume, damage_volume, Volume};
use generate::traces::records;
use reference::request::{Arguments, Request};
use reference::trace::{read, Draft};

use crate::comparison::{Comparison, Stop};
use crate::drawn_traces::{any_draft, lengths_around, positions, some_trace};

/// Draws a volume and a trace; reads records, writes some, and replays.
pub(crate) fn on_next(comparison: &mut Comparison) -> Result<(), Stop> {
    let made = any_volume(&mut comparison.random, 40);
    let trace = some_trace(&mut comparison.random, &made);
    read_records(comparison, &trace)?;
    write_records(comparison, &trace)?;
    replay(comparison, &made, trace)
}

/// Reads at every position of a short trace, and at some of a longer one.
fn read_records(comparison: &mut Comparison, trace: &[u8]) -> Result<(), Stop> {
    let mut pair = comparison.pair(b"");
    for at in positions(&mut comparison.random, trace) {
        let arguments = Arguments {
            number: at,
            buffer: trace.to_vec(),
            ..Arguments::default()
        };
        comparison.ask(&mut pair, Request::TraceRead, &arguments)?;
    }
    Ok(())
}

/// Writes some records, as they are and with other numbers, into buffers of many lengths.
fn write_records(comparison: &mut Comparison, trace: &[u8]) -> Result<(), Stop> {
    for part in records(trace).into_iter().take(3) {
        let Some((record, _)) = read(trace, part.start) else {
            break;
        };
        let draft = any_draft(&mut comparison.random, Draft::from(record));
        let arguments = Arguments {
            entry: draft.entry,
            name: draft.name.to_vec(),
            buffer: draft.bytes.to_vec(),
            ..Arguments::default()
        };
        for length in lengths_around(&mut comparison.random, &draft) {
            let out = comparison.random.bytes(length);
            let mut pair = comparison.pair(&out);
            comparison.ask(&mut pair, Request::TraceWrite, &arguments)?;
        }
    }
    Ok(())
}

/// Replays the trace, once more over what it has left, and on a damaged volume.
fn replay(comparison: &mut Comparison, made: &Volume, trace: Vec<u8>) -> Result<(), Stop> {
    let arguments = Arguments {
        buffer: trace,
        ..Arguments::default()
    };
    let mut pair = comparison.pair(&made.image);
    for _ in 0..2 {
        comparison.ask(&mut pair, Request::TfsReplay, &arguments)?;
    }
    let rule = comparison.random.between(1, 7) as u32;
    if let Some((damaged, _)) = damage_volume(&mut comparison.random, made, rule) {
        let mut pair = comparison.pair(&damaged);
        comparison.ask(&mut pair, Request::TfsReplay, &arguments)?;
    }
    Ok(())
}
