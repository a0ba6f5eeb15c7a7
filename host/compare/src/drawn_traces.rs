//! What is drawn for traces: traces, positions, records to be written, and lengths of buffers.

use generate::tfs::Volume;
use generate::traces::{any_position, any_trace, Plan};
use generate::Random;
use reference::trace::Draft;

/// A trace for a volume, mostly a short one.
pub(crate) fn some_trace(random: &mut Random, made: &Volume) -> Vec<u8> {
    let mut plan = Plan::small(random);
    if random.one_in(20) {
        plan.requests = random.pick(&[20, 60]);
        plan.longest = random.pick(&[0, 20, 5000]);
    }
    any_trace(random, made, plan)
}

/// Every position of a short trace and two past it, or some positions of a longer one.
pub(crate) fn positions(random: &mut Random, trace: &[u8]) -> Vec<u32> {
    const SHORT: usize = 40;
    match trace.len() {
        length if length <= SHORT => (0..length as u32 + 2).collect(),
        _ => (0..SHORT / 2)
            .map(|_| any_position(random, trace))
            .collect(),
    }
}

/// Numbers at which one more group begins, and those around 2^32.
const EDGES: [u64; 15] = [
    0,
    1,
    0x7F,
    0x80,
    0x3FFF,
    0x4000,
    0x1F_FFFF,
    0x20_0000,
    0xFFF_FFFF,
    0x1000_0000,
    0xFFFF_FFFF,
    0x1_0000_0000,
    0x1_0000_0001,
    0x8000_0000_0000_0000,
    u64::MAX,
];

/// A record as it is, or with other numbers: some of them too large, or ones that it has no use for.
pub(crate) fn any_draft<'a>(random: &mut Random, record: Draft<'a>) -> Draft<'a> {
    let mut draft = record;
    let entry = &mut draft.entry;
    let mut numbers = [
        &mut entry.size,
        &mut entry.offset,
        &mut entry.length,
        &mut entry.value,
        &mut entry.refusal,
    ];
    for _ in 0..random.below(4) {
        let number = &mut numbers[random.below(5)];
        **number = random.pick(&EDGES);
    }
    if random.one_in(3) {
        let any = random.bits() >> random.below(64);
        entry.kind = random.pick(&[1, 2, 3, 4, 5, 1, 2, 3, 4, 5, 0, 6, 1 << 32 | 1, any]);
    }
    if draft.bytes.is_empty() && random.one_in(3) {
        draft.bytes = b"bytes that may be ignored";
    }
    draft
}

/// The lengths of buffers around the one that a record needs; of none if it is refused in any.
pub(crate) fn lengths_around(random: &mut Random, draft: &Draft<'_>) -> Vec<usize> {
    let enough = 40 + draft.name.len() + draft.bytes.len();
    match draft.write(&mut vec![0; enough]) {
        Ok(needed) => {
            let around = needed.saturating_sub(3)..needed + 3;
            around.chain([0, random.below(needed), enough]).collect()
        }
        Err(_) => vec![0, random.below(enough), enough],
    }
}
