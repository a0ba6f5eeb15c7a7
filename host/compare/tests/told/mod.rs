//! Wrong programs told by the stored cases.

use compare::{Lent, LentValues, Lents, Side};
use generate::cases::{fnv1a, tfs_cases, Case};
use generate::Random;
use reference::request::Request;

/// Tells whether some stored case differs from what a program gives.
pub fn tell(side: Side) -> bool {
    let told = |case: &Case| case.request != Request::TfsReplay && differs(case, side);
    tfs_cases(1, 700, false).iter().any(told)
}

/// The stored cases tell each of several wrong programs.
pub fn tell_all(programs: &[(&str, Side)]) {
    for (what, side) in programs {
        assert!(tell(*side), "{what}");
    }
}

fn differs(case: &Case, side: Side) -> bool {
    let mut random = Random::new(0);
    let mut lent = |bytes: &[u8]| Lent::new(&mut random, bytes);
    let mut lents = Lents {
        image: lent(&case.image),
        name: lent(&case.arguments.name),
        buffer: lent(&case.arguments.buffer),
        bytes: lent(&case.arguments.bytes),
        values: LentValues::new(&mut Random::new(0), &case.arguments.timing.values),
    };
    let answer = side(case.request, &case.arguments, &mut lents);
    let owed = &case.answer;
    let number = (answer.refusal(), answer.words[1] as u32);
    let value = owed.values.first().copied().unwrap_or(0);
    // A stored boot has its values in the place of the buffer.
    let values = answer.values.map(u16::to_be_bytes).concat();
    let buffer = match case.request {
        Request::TimingBoot => &values[..],
        _ => lents.buffer.bytes(),
    };
    let hash = fnv1a(lents.image.bytes().iter().chain(buffer));
    number != (owed.number, owed.place) || answer.value() != value || hash != owed.hash
}
