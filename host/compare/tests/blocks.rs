//! The comparison finds programs that count the blocks of a transfer wrongly.

mod sought;

use std::collections::HashSet;

use compare::sides::reference;
use compare::{Answer, Lents, Side};
use generate::cases::{tfs_cases, Case};
use generate::tfs::{File, Volume};
use reference::request::{Arguments, Request};
use sought::{compared, found_in};

/// A granted read or write.
struct Transfer {
    file: File,
    offset: u32,
    count: u32,
    /// The length of the buffer.
    length: u32,
}

/// Tells how many blocks a transfer meets.
type Blocks = fn(&Transfer) -> u32;

/// The distinct blocks that the inode lists for the bytes, byte by byte.
fn right(transfer: &Transfer) -> u32 {
    let positions = transfer.offset..transfer.offset + transfer.count;
    let block = |position: u32| transfer.file.blocks[position as usize / 512];
    positions.map(block).collect::<HashSet<u32>>().len() as u32
}

/// A wrong number where bytes are moved, and none where none are.
fn if_any(transfer: &Transfer, blocks: u32) -> u32 {
    if transfer.count == 0 {
        0
    } else {
        blocks
    }
}

fn one_more_at_a_blocks_end(transfer: &Transfer) -> u32 {
    let Transfer { offset, count, .. } = *transfer;
    if_any(transfer, (offset + count) / 512 - offset / 512 + 1)
}

fn one_for_a_count_of_0(transfer: &Transfer) -> u32 {
    right(transfer).max(1)
}

fn one_for_a_count_of_0_inside_a_block(transfer: &Transfer) -> u32 {
    let inside = !transfer.offset.is_multiple_of(512);
    right(transfer).max(inside.into())
}

fn by_the_buffers_length(transfer: &Transfer) -> u32 {
    let Transfer { offset, length, .. } = *transfer;
    match length {
        0 => 0,
        _ => (offset + length - 1) / 512 - offset / 512 + 1,
    }
}

/// The same, but none for a count of 0.
fn by_the_buffers_length_if_any(transfer: &Transfer) -> u32 {
    if_any(transfer, by_the_buffers_length(transfer))
}

fn with_no_offset(transfer: &Transfer) -> u32 {
    transfer.count.div_ceil(512)
}

fn all_of_the_file(transfer: &Transfer) -> u32 {
    if_any(transfer, transfer.file.size.div_ceil(512))
}

fn one_fewer_from_inside_a_block(transfer: &Transfer) -> u32 {
    let inside = !transfer.offset.is_multiple_of(512);
    right(transfer).saturating_sub(inside.into())
}

fn from_the_files_start(transfer: &Transfer) -> u32 {
    let Transfer { offset, count, .. } = *transfer;
    if_any(transfer, (offset + count).div_ceil(512))
}

/// The most that so many bytes can meet.
fn the_bound(transfer: &Transfer) -> u32 {
    if_any(transfer, (transfer.count + 510) / 512 + 1)
}

fn whole_blocks(transfer: &Transfer) -> u32 {
    let Transfer { offset, count, .. } = *transfer;
    ((offset + count) / 512).saturating_sub(offset.div_ceil(512))
}

fn edges_passed(transfer: &Transfer) -> u32 {
    right(transfer).saturating_sub(1)
}

fn with_the_inode(transfer: &Transfer) -> u32 {
    if_any(transfer, right(transfer) + 1)
}

/// Counts blocks that stand one after another in the image as one.
fn joined(transfer: &Transfer) -> u32 {
    let first = transfer.offset as usize / 512;
    let met = &transfer.file.blocks[first..][..right(transfer) as usize];
    let apart = met.windows(2).filter(|two| two[0] + 1 != two[1]).count();
    if_any(transfer, apart as u32 + 1)
}

/// The file of a name in a consistent image.
fn file(image: &[u8], name: &[u8]) -> File {
    let mut volume = Volume {
        image: Vec::new(),
        blocks: image.len() / 512,
        files: Vec::new(),
        gone: Vec::new(),
    };
    volume.look(image);
    let named = volume.files.into_iter().find(|file| file.name == name);
    named.expect("a file of this name")
}

fn transfer(image: &[u8], arguments: &Arguments, count: u32) -> Transfer {
    Transfer {
        file: file(image, &arguments.name),
        offset: arguments.number,
        count,
        length: arguments.buffer.len() as u32,
    }
}

/// Answers one request, read or write, with a number of blocks of its own.
fn counted(
    request: Request,
    arguments: &Arguments,
    lents: &mut Lents,
    wrong: Request,
    blocks: Blocks,
) -> Answer {
    let answer = reference(request, arguments, lents);
    if request != wrong || answer.refusal() != 0 {
        return answer;
    }
    let count = answer.value();
    let blocks = blocks(&transfer(lents.image.bytes(), arguments, count));
    Answer::of(&[0, 0, count.into(), blocks.into()])
}

/// A number of blocks, and the programs that answer read and write with it.
macro_rules! counting {
    ($blocks:expr) => {
        (
            $blocks,
            [
                |r, a, l| counted(r, a, l, Request::TfsRead, $blocks),
                |r, a, l| counted(r, a, l, Request::TfsWrite, $blocks),
            ],
        )
    };
}

const WRONG: [(Blocks, [Side; 2]); 14] = [
    counting!(one_more_at_a_blocks_end),
    counting!(one_for_a_count_of_0),
    counting!(one_for_a_count_of_0_inside_a_block),
    counting!(by_the_buffers_length),
    counting!(by_the_buffers_length_if_any),
    counting!(with_no_offset),
    counting!(all_of_the_file),
    counting!(one_fewer_from_inside_a_block),
    counting!(from_the_files_start),
    counting!(the_bound),
    counting!(whole_blocks),
    counting!(edges_passed),
    counting!(with_the_inode),
    counting!(joined),
];

const TRANSFERS: [Request; 2] = [Request::TfsRead, Request::TfsWrite];

#[test]
fn blocks_counted_wrongly() {
    for (_, sides) in WRONG {
        for (request, side) in TRANSFERS.into_iter().zip(sides) {
            let found = found_in(" --only tfs", side);
            let [ours, theirs] = found.difference.answers;
            assert_eq!(found.difference.request, request);
            assert_eq!(ours.words[..3], theirs.words[..3]);
            assert_ne!(ours.blocks(), theirs.blocks());
            assert!(found.image < 30, "found on image {} only", found.image);
        }
    }
}

#[test]
fn blocks_counted_rightly() {
    let (_, sides): (Blocks, [Side; 2]) = counting!(right);
    for side in sides {
        let (_, found) = compared("--seed 1 --cases 40000 --only tfs", side);
        assert!(found.is_none(), "{found:?}");
    }
}

/// Gives the blocks of the whole buffer with one of the refusals.
fn told_with<const REFUSAL: u32, const WRITE: bool>(
    request: Request,
    arguments: &Arguments,
    lents: &mut Lents,
) -> Answer {
    let answer = reference(request, arguments, lents);
    if request != TRANSFERS[usize::from(WRITE)] || answer.refusal() != REFUSAL {
        return answer;
    }
    let blocks = arguments.buffer.len().div_ceil(512) as u64;
    Answer::of(&[REFUSAL.into(), answer.words[1], 0, blocks])
}

#[test]
fn blocks_told_with_a_refusal() {
    let wrong: [(u32, [Side; 2]); 4] = [
        (7, [told_with::<7, false>, told_with::<7, true>]),
        (8, [told_with::<8, false>, told_with::<8, true>]),
        (13, [told_with::<13, false>, told_with::<13, true>]),
        (15, [told_with::<15, false>, told_with::<15, true>]),
    ];
    for (refusal, sides) in wrong {
        for (request, side) in TRANSFERS.into_iter().zip(sides) {
            let difference = found_in(" --only tfs", side).difference;
            let [ours, theirs] = difference.answers;
            assert_eq!((difference.request, ours.refusal()), (request, refusal));
            assert_eq!((theirs.refusal(), theirs.blocks()), (refusal, 0));
        }
    }
}

/// Tells whether a number of blocks is another than a stored case has.
fn differs(case: &Case, blocks: Blocks) -> bool {
    let count = case.answer.values[0];
    let blocks = blocks(&transfer(&case.image, &case.arguments, count));
    case.answer.values != [count, blocks]
}

#[test]
fn stored_cases_tell_wrong_numbers_of_blocks() {
    let cases = tfs_cases(1, 700, false);
    for request in TRANSFERS {
        let granted = |case: &&Case| (case.request, case.answer.number) == (request, 0);
        let granted: Vec<&Case> = cases.iter().filter(granted).collect();
        for (blocks, _) in WRONG {
            assert!(granted.iter().any(|case| differs(case, blocks)));
        }
        assert!(!granted.iter().any(|case| differs(case, right)));
        for refusal in [8, 13, 15] {
            let refused = |case: &&Case| (case.request, case.answer.number) == (request, refusal);
            let mut refused = cases.iter().filter(refused);
            assert!(refused.any(|case| !case.arguments.buffer.is_empty()));
        }
    }
}
