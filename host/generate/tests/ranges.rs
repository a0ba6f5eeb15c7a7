//! Reads and writes are drawn with every kind of range around the edges of blocks.

use generate::cases::{tfs_arguments, tfs_cases, Case};
use generate::tfs::any_volume;
use generate::Random;
use reference::request::Request;
use reference::tfs::{self, Listing};

/// The range of a granted read or write, and the file's size.
struct Range {
    request: Request,
    size: u32,
    offset: u32,
    /// Where the bytes that are moved end.
    end: u32,
    /// Where the buffer ends.
    buffer_end: u32,
}

impl Range {
    fn of(case: &Case) -> Option<Self> {
        let transfer = matches!(case.request, Request::TfsRead | Request::TfsWrite);
        if !transfer || case.answer.number != 0 {
            return None;
        }
        let size = (0..25).find_map(|slot| match tfs::list(&case.image, slot) {
            Ok(Listing::Used { name, size, .. }) if name == case.arguments.name => Some(size),
            _ => None,
        })?;
        let offset = case.arguments.number;
        Some(Self {
            request: case.request,
            size,
            offset,
            end: offset + case.answer.values[0],
            buffer_end: offset + case.arguments.buffer.len() as u32,
        })
    }

    fn moves(&self) -> bool {
        self.end > self.offset
    }

    /// Begins and ends in different blocks.
    fn crosses(&self) -> bool {
        self.moves() && self.offset / 512 != (self.end - 1) / 512
    }

    /// The buffer is longer than the rest of the file.
    fn is_cut(&self) -> bool {
        self.buffer_end > self.size
    }
}

type Kind = (&'static str, fn(&Range) -> bool);

/// Kinds of ranges that move bytes.
const MOVING: [Kind; 13] = [
    ("a whole block", |r| {
        r.offset % 512 == 0 && r.end == r.offset + 512
    }),
    ("inside a block", |r| {
        r.offset % 512 != 0 && r.end % 512 != 0 && r.moves() && !r.crosses()
    }),
    ("from inside a block to its end", |r| {
        r.offset % 512 != 0 && r.end % 512 == 0 && r.moves() && !r.crosses()
    }),
    ("from inside a block to another's end", |r| {
        r.offset % 512 != 0 && r.end % 512 == 0 && r.crosses()
    }),
    ("from inside a block into another", |r| {
        r.offset % 512 != 0 && r.end % 512 != 0 && r.crosses()
    }),
    ("from a block's start into another", |r| {
        r.offset % 512 == 0 && r.end % 512 != 0 && r.crosses()
    }),
    ("from a byte before an edge", |r| {
        r.offset % 512 == 511 && r.crosses()
    }),
    ("from a byte behind an edge", |r| {
        r.offset % 512 == 1 && r.moves()
    }),
    ("to a byte before an edge", |r| {
        r.end % 512 == 511 && r.moves()
    }),
    ("to a byte behind an edge", |r| {
        r.end % 512 == 1 && r.crosses()
    }),
    ("two bytes over an edge", |r| {
        r.offset % 512 == 511 && r.end == r.offset + 2
    }),
    ("over three blocks", |r| {
        r.moves() && r.end.div_ceil(512) - r.offset / 512 >= 3
    }),
    ("a whole file of several blocks", |r| {
        r.offset == 0 && r.end == r.size && r.crosses()
    }),
];

/// Kinds of ranges that are cut at the file's end, and of empty ones.
const CUT_OR_EMPTY: [Kind; 10] = [
    ("a buffer's end in the last block", |r| {
        r.moves() && r.is_cut() && r.buffer_end < r.size.next_multiple_of(512)
    }),
    ("a buffer's end at the last block's end", |r| {
        r.moves() && r.is_cut() && r.buffer_end == r.size.next_multiple_of(512)
    }),
    ("a buffer's end behind the last block", |r| {
        r.moves() && r.size % 512 != 0 && r.buffer_end > r.size.next_multiple_of(512)
    }),
    ("a buffer's end behind a full last block", |r| {
        r.moves() && r.size % 512 == 0 && r.is_cut()
    }),
    ("no buffer inside a block", |r| {
        r.offset == r.buffer_end && r.offset % 512 != 0 && r.offset < r.size
    }),
    ("no buffer at the start", |r| {
        r.offset == 0 && r.buffer_end == 0 && r.size > 0
    }),
    ("no buffer at an edge", |r| {
        r.offset == r.buffer_end && r.offset % 512 == 0 && (1..r.size).contains(&r.offset)
    }),
    ("a buffer at the end inside a block", |r| {
        r.offset == r.size && r.is_cut() && r.size % 512 != 0
    }),
    ("a buffer at the end at an edge", |r| {
        r.offset == r.size && r.is_cut() && r.size % 512 == 0 && r.size > 0
    }),
    ("no buffer at the end", |r| {
        r.offset == r.size && r.buffer_end == r.size && r.size > 0
    }),
];

/// Asserts that a read and a write of every kind stand so often among cases.
fn assert_drawn(cases: &[Case], least: usize) {
    let ranges: Vec<Range> = cases.iter().filter_map(Range::of).collect();
    for request in [Request::TfsRead, Request::TfsWrite] {
        let asked: Vec<&Range> = ranges.iter().filter(|r| r.request == request).collect();
        for (kind, is) in MOVING.iter().chain(&CUT_OR_EMPTY) {
            let count = asked.iter().filter(|range| is(range)).count();
            assert!(
                count >= least,
                "{request:?} {kind}: {count} of {}",
                asked.len()
            );
        }
    }
}

#[test]
fn stored_cases_have_every_kind_of_range() {
    for seed in 1..=5 {
        assert_drawn(&tfs_cases(seed, 700, false), 1);
    }
}

#[test]
fn drawn_arguments_have_every_kind_of_range() {
    let mut random = Random::new(51);
    let mut cases = Vec::new();
    for _ in 0..5000 {
        let made = any_volume(&mut random, 40);
        for request in [Request::TfsRead, Request::TfsWrite] {
            let arguments = tfs_arguments(&mut random, &made, request);
            cases.push(Case::new(request, arguments, &made.image));
        }
    }
    assert_drawn(&cases, 10);
}
