//! Cases of replays.

use reference::request::{Arguments, Request};

use super::drawn::Drawn;
use crate::tfs::Volume;
use crate::traces::{change_answer, damage_trace, session, AnswerChange, Plan, TraceFault};

/// Adds replays with every end, with every change of an answer and every fault.
pub(super) fn one_of_each(drawn: &mut Drawn, made: &Volume, damaged: &[Vec<u8>]) {
    let (trace, changed) = changeable(drawn, made);
    replay(drawn, b"", &made.image);
    replay(drawn, &trace, &made.image);
    for changed in changed {
        replay(drawn, &changed, &made.image);
    }
    for image in damaged {
        replay(drawn, &trace, image);
    }
    replay(drawn, b"", &damaged[0]);
    for way in TraceFault::ALL.repeat(2) {
        if let Some((damaged, _)) = damage_trace(&mut drawn.random, &trace, way) {
            replay(drawn, &damaged, &made.image);
        }
    }
}

/// A session that every change of an answer fits, and the traces so changed.
fn changeable(drawn: &mut Drawn, made: &Volume) -> (Vec<u8>, Vec<Vec<u8>>) {
    let plan = Plan {
        requests: 12,
        longest: 40,
    };
    loop {
        let trace = session(&mut drawn.random, made, plan);
        let changes = AnswerChange::ALL.iter();
        let changed = changes.map(|change| change_answer(&mut drawn.random, &trace, *change));
        let changed: Option<Vec<_>> = changed.map(|made| Some(made?.0)).collect();
        if let Some(changed) = changed {
            return (trace, changed);
        }
    }
}

fn replay(drawn: &mut Drawn, trace: &[u8], image: &[u8]) {
    let arguments = Arguments {
        buffer: trace.to_vec(),
        ..Arguments::default()
    };
    drawn.add(Request::TfsReplay, arguments, image);
}
