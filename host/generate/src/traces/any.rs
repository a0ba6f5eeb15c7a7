//! Traces by chance.

use super::{
    change_answer, damage_trace, records, scramble_trace, session, AnswerChange, Plan, TraceFault,
};
use crate::tfs::Volume;
use crate::Random;

/// Draws a trace for a volume: often one that replays wholly, else one that stops somewhere.
pub fn any_trace(random: &mut Random, made: &Volume, plan: Plan) -> Vec<u8> {
    let trace = session(random, made, plan);
    let trace = match random.below(8) {
        0..=2 => {
            let change = random.pick(&AnswerChange::ALL);
            change_answer(random, &trace, change).map_or(trace, |(changed, _)| changed)
        }
        _ => trace,
    };
    match random.below(20) {
        0..=4 => {
            let way = random.pick(&TraceFault::ALL);
            damage_trace(random, &trace, way).map_or(trace, |(damaged, _)| damaged)
        }
        5..=6 => scramble_trace(random, &trace),
        7 => {
            let length = random.below(30);
            random.bytes(length)
        }
        8 => Vec::new(),
        _ => trace,
    }
}

/// Draws a position: where a record starts, anywhere, at the end or past it.
pub fn any_position(random: &mut Random, trace: &[u8]) -> u32 {
    let starts = records(trace).into_iter().map(|part| part.start);
    let start = random.choose(&starts.collect::<Vec<_>>()).unwrap_or(0);
    let any = random.below(trace.len() + 1);
    let end = trace.len();
    let positions = [start, start, start, any, end, end + 1, end + 1000];
    match random.one_in(20) {
        true => u32::MAX,
        false => random.pick(&positions) as u32,
    }
}
