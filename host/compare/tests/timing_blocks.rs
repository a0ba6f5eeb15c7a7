//! The comparison finds programs that give wrong blocks of stores and openings of the timing file.

mod sought;
mod timed;
mod told;

use compare::{Answer, Side};
use reference::request::Request;
use reference::timing;
use timed::{broken_by_cut, file, find, refused, Asked};

const STORE: Request = Request::TimingStoreBlock;
const OPEN_LID: Request = Request::TimingOpenLidBlock;

/// The number of stores of a store of the timing file that is granted.
fn last(image: &[u8]) -> usize {
    match file(image) {
        Some(_) => 1,
        None => 5,
    }
}

/// Writes the numbers, and then the values: one store more.
fn numbers_first(mut asked: Asked<'_>) -> Answer {
    let (k, last) = (asked.arguments.k, last(asked.before));
    if k > last {
        return asked.again(STORE, k - 1);
    }
    if k == last && asked.answer.refusal() == 0 {
        let old = 512 * asked.answer.value() as usize;
        let values = match last {
            1 => &asked.before[old + 8..old + 64],
            _ => &[0; 56],
        };
        asked.lents.buffer.bytes_mut()[8..64].copy_from_slice(values);
    }
    asked.answer
}

/// The content at once in the first store of a file that is made.
fn four_stores(mut asked: Asked<'_>) -> Answer {
    match (last(asked.before), asked.arguments.k) {
        (5, 1) => asked.again(STORE, 5),
        (5, 5) => asked.again(STORE, 0),
        _ => asked.answer,
    }
}

fn content_first(mut asked: Asked<'_>) -> Answer {
    match (last(asked.before), asked.arguments.k) {
        (5, 1) => asked.again(STORE, 5),
        (5, 5) => asked.again(STORE, 1),
        _ => asked.answer,
    }
}

/// The content before the directory, which is the last.
fn directory_last(mut asked: Asked<'_>) -> Answer {
    match (last(asked.before), asked.arguments.k) {
        (5, 4) => asked.again(STORE, 5),
        (5, 5) => asked.again(STORE, 4),
        _ => asked.answer,
    }
}

/// Leaves in the fifth store what stands behind the 64 bytes in the image.
fn old_bytes_behind(asked: Asked<'_>) -> Answer {
    if asked.answer.refusal() == 0 && asked.arguments.k == 5 {
        let behind = 512 * asked.answer.value() as usize + 64;
        let old = &asked.before[behind..behind + 448];
        asked.lents.buffer.bytes_mut()[64..512].copy_from_slice(old);
    }
    asked.answer
}

/// Zeros behind the 64 bytes also where the file stands.
fn block_cleared(asked: Asked<'_>) -> Answer {
    if asked.answer.refusal() == 0 && last(asked.before) == 1 {
        asked.lents.buffer.bytes_mut()[64..512].fill(0);
    }
    asked.answer
}

fn one_more(mut asked: Asked<'_>) -> Answer {
    let last = last(asked.before);
    match asked.arguments.k == last + 1 {
        true => asked.again(STORE, last),
        false => asked.answer,
    }
}

fn rest_cleared(asked: Asked<'_>) -> Answer {
    if asked.answer.refusal() == 0 {
        asked.lents.buffer.bytes_mut()[512..].fill(0);
    }
    asked.answer
}

fn refused_32_first(asked: Asked<'_>) -> Answer {
    match asked.arguments.k == 0 || asked.arguments.buffer.len() < 512 {
        true => refused(32),
        false => asked.answer,
    }
}

fn refused_32_behind_the_check(asked: Asked<'_>) -> Answer {
    match asked.arguments.k == 0 && asked.answer.refusal() > 7 {
        true => refused(32),
        false => asked.answer,
    }
}

fn low_bits_of_k(mut asked: Asked<'_>) -> Answer {
    let k = asked.arguments.k as u32;
    asked.again(STORE, k as usize)
}

fn k_0_is_the_first(mut asked: Asked<'_>) -> Answer {
    let k = asked.arguments.k.max(1);
    asked.again(STORE, k)
}

fn a_part_in_a_short_buffer(asked: Asked<'_>) -> Answer {
    if asked.answer.refusal() == 32 && asked.lents.buffer.bytes().len() < 512 {
        asked.lents.buffer.bytes_mut().fill(0);
    }
    asked.answer
}

fn made_too(asked: Asked<'_>) -> Answer {
    if asked.answer.refusal() == 0 {
        timing::store(asked.lents.image.bytes_mut(), &asked.arguments.timing).expect("a store");
    }
    asked.answer
}

fn whole_file_in_block(asked: Asked<'_>) -> Answer {
    if asked.answer.refusal() == 0 {
        asked.lents.buffer.bytes_mut()[..64].fill(0);
    }
    asked.answer
}

/// Gives the block as it is.
fn not_opened(asked: Asked<'_>) -> Answer {
    if asked.answer.refusal() == 0 {
        let block = &asked.before[512 * asked.answer.value() as usize..][..512];
        asked.lents.buffer.bytes_mut()[..512].copy_from_slice(block);
    }
    asked.answer
}

fn opened_twice(mut asked: Asked<'_>) -> Answer {
    match asked.arguments.k {
        2 => asked.again(OPEN_LID, 1),
        _ => asked.answer,
    }
}

const BLOCKS: [(&str, Side); 21] = [
    wrong!(TimingStoreBlock, numbers_first),
    wrong!(TimingStoreBlock, four_stores),
    wrong!(TimingStoreBlock, content_first),
    wrong!(TimingStoreBlock, directory_last),
    wrong!(TimingStoreBlock, old_bytes_behind),
    wrong!(TimingStoreBlock, block_cleared),
    wrong!(TimingStoreBlock, one_more),
    wrong!(TimingStoreBlock, rest_cleared),
    wrong!(TimingStoreBlock, refused_32_first),
    wrong!(TimingStoreBlock, refused_32_behind_the_check),
    wrong!(TimingStoreBlock, low_bits_of_k),
    wrong!(TimingStoreBlock, k_0_is_the_first),
    wrong!(TimingStoreBlock, a_part_in_a_short_buffer),
    wrong!(TimingStoreBlock, made_too),
    wrong!(TimingOpenLidBlock, whole_file_in_block),
    wrong!(TimingOpenLidBlock, not_opened),
    wrong!(TimingOpenLidBlock, opened_twice),
    wrong!(TimingOpenLidBlock, rest_cleared),
    wrong!(TimingOpenLidBlock, refused_32_first),
    wrong!(TimingOpenLidBlock, refused_32_behind_the_check),
    wrong!(TimingOpenLidBlock, a_part_in_a_short_buffer),
];

#[test]
fn wrong_blocks_are_found() {
    find(&BLOCKS);
    told::tell_all(&BLOCKS);
}

#[test]
fn cuts_tell_wrong_blocks_where_both_sides_agree() {
    let programs: [((&str, Side), &str); 6] = [
        (
            wrong!(TimingStoreBlock, numbers_first),
            "others than listed",
        ),
        (wrong!(TimingStoreBlock, four_stores), "others than listed"),
        (
            wrong!(TimingStoreBlock, directory_last),
            "others than listed",
        ),
        (wrong!(TimingStoreBlock, content_first), "another image"),
        (wrong!(TimingStoreBlock, block_cleared), "another image"),
        (wrong!(TimingOpenLidBlock, not_opened), "another image"),
    ];
    for (program, words) in programs {
        broken_by_cut(program, words);
    }
}
