//! The parts of a volume for a program.

use super::{blocks_of, content_blocks, slot, sorted, word, zero_ended, Part, BLOCK};
use crate::json::{Members, Value};
use crate::words;

/// The members of a part: where it lies, its bytes in hex, and what they mean, if all of it is there.
pub fn of(part: Part, image: &[u8], bytes: &[u8], cut_off: bool) -> Members {
    let (name, number) = match part {
        Part::Header => ("header", None),
        Part::Map => ("map", None),
        Part::Slot(slot) => ("slot", Some(slot)),
        Part::Inode(block) => ("inode", Some(block)),
    };
    let hex: String = bytes.iter().map(|byte| format!("{byte:02x}")).collect();
    let mut members: Members = vec![("part", name.into())];
    members.extend(number.map(|number| ("number", number.into())));
    members.extend([
        ("offset", part.range().start.into()),
        ("bytes", hex.into()),
        ("cut_off", cut_off.into()),
    ]);
    if !cut_off {
        members.extend(meaning(part, image, bytes));
    }
    members
}

fn meaning(part: Part, image: &[u8], bytes: &[u8]) -> Members {
    let blocks = blocks_of(image);
    match part {
        Part::Header => vec![
            ("magic", word(bytes, 0).into()),
            ("label", zero_ended(&bytes[4..20]).map(words::name).into()),
            ("blocks", blocks.into()),
        ],
        Part::Map => {
            let (reserved, free, past) = sorted(bytes, blocks);
            vec![
                ("reserved", reserved.into_iter().collect()),
                ("free", free.into_iter().collect()),
                ("past", past.into()),
            ]
        }
        Part::Slot(number) => slot::members(image, number, blocks),
        Part::Inode(_) => inode(bytes),
    }
}

fn inode(bytes: &[u8]) -> Members {
    let size = word(bytes, 0);
    let used = content_blocks(size);
    let numbers = (1..BLOCK / 4).map(|index| word(bytes, index));
    let content: Value = numbers.clone().take(used).collect();
    let unused: Value = numbers.skip(used).filter(|&number| number != 0).collect();
    vec![
        ("size", size.into()),
        ("content", content),
        ("unused", unused),
    ]
}
