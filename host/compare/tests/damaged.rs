//! Traces damaged at every byte, read and replayed by both programs.

use compare::sides::{proved, reference};
use compare::Pair;
use generate::tfs::{any_volume, Volume};
use generate::traces::{session, Plan};
use generate::Random;
use reference::request::{Arguments, Request};

/// Asks both programs for a request with a trace, which must answer alike.
fn ask(random: &mut Random, image: &[u8], request: Request, at: usize, trace: &[u8]) -> u64 {
    let mut pair = Pair::new(random, [proved, reference], image);
    let arguments = Arguments {
        number: at as u32,
        buffer: trace.to_vec(),
        ..Arguments::default()
    };
    let answer = pair.request(random, request, &arguments);
    let answer = answer.unwrap_or_else(|difference| panic!("{difference}{trace:x?}"));
    answer.words[2]
}

/// Replays a damaged trace and reads its records where those of the sound one start.
fn withstand(random: &mut Random, made: &Volume, starts: &[usize], trace: &[u8]) -> u64 {
    for at in starts {
        ask(random, b"", Request::TraceRead, *at, trace);
    }
    ask(random, &made.image, Request::TfsReplay, 0, trace)
}

/// Every trace with one byte changed, removed or put in, or cut off.
fn damaged(trace: &[u8]) -> Vec<Vec<u8>> {
    let mut all = Vec::new();
    for at in 0..=trace.len() {
        let (before, behind) = trace.split_at(at);
        all.push(before.to_vec());
        for byte in [0, 1, 5, 0x0F, 0x10, 0x7F, 0x80, 0x81, 0xFF] {
            all.push([before, &[byte], behind].concat());
        }
        if let Some((old, behind)) = behind.split_first() {
            all.push([before, behind].concat());
            let flipped = (0..8).map(|bit| old ^ (1 << bit));
            for byte in flipped.chain([0, 0x0F, 0x10, 0x80]) {
                all.push([before, &[byte], behind].concat());
            }
        }
    }
    all
}

#[test]
fn both_withstand_damage_at_every_byte() {
    let mut random = Random::new(11);
    let mut ended = [0; 3];
    for _ in 0..12 {
        let made = any_volume(&mut random, 12);
        let plan = Plan {
            requests: 4,
            longest: 20,
        };
        let trace = session(&mut random, &made, plan);
        let parts = generate::traces::records(&trace);
        let starts: Vec<usize> = parts.into_iter().map(|part| part.start).collect();
        for trace in damaged(&trace) {
            let outcome = withstand(&mut random, &made, &starts, &trace);
            ended[outcome as usize] += 1;
        }
    }
    assert!(ended.iter().all(|count| *count > 100), "{ended:?}");
}
