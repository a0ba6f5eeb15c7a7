//! Traces: sessions of requests on a volume, right ones, ones with another answer than the volume
//! gives, and malformed ones.

mod any;
mod changes;
mod faults;
mod session;

pub use any::{any_position, any_trace};
pub use changes::{change_answer, AnswerChange};
pub use faults::{damage_trace, scramble_trace, TraceFault};
pub use session::{session, Plan};

use std::ops::Range;

use reference::trace::read;

/// Tells where the records of a trace lie, up to the first malformed one.
pub fn records(trace: &[u8]) -> Vec<Range<usize>> {
    let mut at = 0;
    let next = || {
        let (_, next) = read(trace, at)?;
        Some(std::mem::replace(&mut at, next)..next)
    };
    std::iter::from_fn(next).collect()
}

/// A trace with other bytes in place of a part.
fn replaced(trace: &[u8], part: Range<usize>, bytes: &[u8]) -> Vec<u8> {
    [&trace[..part.start], bytes, &trace[part.end..]].concat()
}
