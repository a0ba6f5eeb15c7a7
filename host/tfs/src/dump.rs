//! Bytes of a volume in hex and their meaning, as this tool reads them, sound or damaged.

mod members;
mod slot;

use crate::failure::{Failure, Outcome};
use crate::image::{Image, LONGEST_VOLUME};
use crate::numbers::number;
use crate::report::Form;
use crate::volume::SLOTS;
use crate::words;
use std::ffi::OsStr;
use std::fmt::Write;
use std::ops::Range;
use std::path::Path;

const BLOCK: usize = 512;
const MOST_BLOCKS: usize = 4096;
const MAGIC: u32 = 3745;
const FIRST_DATA: u32 = 3;
const LARGEST_FILE: u32 = 65_024;
const NOTE: &str = "read by this tool from the bytes alone; the volume is not checked\n";

/// A part of a volume.
#[derive(Clone, Copy)]
pub enum Part {
    Header,
    Map,
    Slot(u32),
    Inode(u32),
}

impl Part {
    /// The part that words ask for.
    pub fn asked(word: &OsStr, count: Option<&OsStr>) -> Result<Self, Failure> {
        let part = match (word.to_str(), count) {
            (Some("header"), None) => Ok(Self::Header),
            (Some("map"), None) => Ok(Self::Map),
            (Some("slot"), Some(count)) => number(count).and_then(Self::slot),
            (Some("inode"), Some(count)) => number(count).map(Self::Inode),
            (Some(part @ ("header" | "map")), Some(_)) => Err(format!("{part} has no number")),
            (Some(part @ ("slot" | "inode")), None) => Err(format!("{part} needs a number")),
            _ => {
                let parts = "there are header, map, slot N, inode N";
                Err(format!("{}: no such part; {parts}", word.display()))
            }
        };
        part.map_err(|why| Failure::Usage(format!("dump: {why}")))
    }

    fn slot(number: u32) -> Result<Self, String> {
        let last = SLOTS - 1;
        match number {
            0..SLOTS => Ok(Self::Slot(number)),
            _ => Err(format!("there is no slot {number}, the last is {last}")),
        }
    }

    /// Where the part lies.
    fn range(self) -> Range<usize> {
        match self {
            Self::Header => 0..BLOCK,
            Self::Map => BLOCK..2 * BLOCK,
            Self::Slot(slot) => {
                let start = 2 * BLOCK + 20 * slot as usize;
                start..start + 20
            }
            Self::Inode(block) => {
                let start = BLOCK * block as usize;
                start..start + BLOCK
            }
        }
    }

    /// What the part means in an image that has all of it.
    fn meaning(self, image: &[u8]) -> String {
        let blocks = blocks_of(image);
        let bytes = &image[self.range()];
        match self {
            Self::Header => header(bytes, blocks),
            Self::Map => map(bytes, blocks),
            Self::Slot(number) => slot::meaning(image, number, blocks),
            Self::Inode(_) => inode(bytes, blocks),
        }
    }
}

/// Shows a part of a volume.
pub fn dump(path: &Path, part: Part, form: Form) -> Outcome {
    let image = Image::load_volume(path)?;
    let (range, length) = (part.range(), image.bytes.len());
    let bytes = image.bytes.get(range.start..range.end.min(length));
    let bytes = bytes.unwrap_or_default();
    if bytes.is_empty() {
        let start = range.start;
        let ends = match length {
            LONGEST_VOLUME => "as a volume ends",
            _ => "ends",
        };
        return Err(image.unread(format!(
            "{ends} at byte {length}, that part begins at {start}"
        )));
    }
    let cut_off = bytes.len() < range.len();
    let meaning = || match cut_off {
        true => format!("cut off: the image ends at byte {length}\n"),
        false => part.meaning(&image.bytes),
    };
    Ok(form.told(
        || [NOTE, &hex(range.start, bytes), &meaning()].concat(),
        || members::of(part, &image.bytes, bytes, cut_off),
    ))
}

/// Lines of 16 bytes with their offset; a run of equal lines is shown by its first and a star.
fn hex(start: usize, bytes: &[u8]) -> String {
    let mut text = String::new();
    let mut before: Option<&[u8]> = None;
    let mut starred = false;
    for (index, line) in bytes.chunks(16).enumerate() {
        if before == Some(line) {
            text += if starred { "" } else { "*\n" };
            starred = true;
        } else {
            let _ = write!(text, "{:06x} ", start + 16 * index);
            line.iter().for_each(|byte| text += &format!(" {byte:02x}"));
            text.push('\n');
            starred = false;
        }
        before = Some(line);
    }
    text
}

/// The number of blocks of a volume.
fn blocks_of(image: &[u8]) -> u32 {
    (image.len() / BLOCK).min(MOST_BLOCKS) as u32
}

fn header(bytes: &[u8], blocks: u32) -> String {
    let magic = word(bytes, 0);
    let right = if magic == MAGIC {
        "right"
    } else {
        "wrong, 3745 is right"
    };
    let label = match zero_ended(&bytes[4..20]) {
        Some(label) => format!("\"{}\"", words::name(label)),
        None => "without an end".to_string(),
    };
    format!("magic number: {magic}, {right}\nvolume name: {label}\nblocks: {blocks}\n")
}

fn inode(bytes: &[u8], blocks: u32) -> String {
    let size = word(bytes, 0);
    let too_large = if size > LARGEST_FILE {
        ", over 65024"
    } else {
        ""
    };
    let used = content_blocks(size);
    let mut text = format!("size: {size}{too_large}\n");
    for index in 0..BLOCK / 4 - 1 {
        let block = word(bytes, index + 1);
        if index < used {
            let _ = writeln!(
                text,
                "content {index}: block {block}{}",
                out_of_range(block, blocks)
            );
        } else if block != 0 {
            let _ = writeln!(text, "unused {index}: {block}, 0 is right");
        }
    }
    text
}

/// The number of block numbers that an inode uses for a size.
fn content_blocks(size: u32) -> usize {
    (size.div_ceil(BLOCK as u32) as usize).min(BLOCK / 4 - 1)
}

/// The reserved and the free blocks of a map, and how many bits are set past the volume.
fn sorted(bytes: &[u8], blocks: u32) -> (Vec<u32>, Vec<u32>, usize) {
    let (reserved, free) = (0..blocks).partition(|&block| bit(bytes, block));
    let past = (blocks..MOST_BLOCKS as u32).filter(|&block| bit(bytes, block));
    (reserved, free, past.count())
}

fn map(bytes: &[u8], blocks: u32) -> String {
    let (reserved, free, past) = sorted(bytes, blocks);
    format!(
        "reserved: {}: {}\nfree: {}: {}\nset past the volume's {blocks} blocks, ignored: {past}\n",
        reserved.len(),
        runs(&reserved),
        free.len(),
        runs(&free)
    )
}

/// Rising numbers, neighbours joined: "0-5 9".
fn runs(numbers: &[u32]) -> String {
    let joined = numbers.chunk_by(|low, high| low + 1 == *high);
    let shown = joined.map(|run| match run {
        [only] => only.to_string(),
        _ => format!("{}-{}", run[0], run[run.len() - 1]),
    });
    shown.collect::<Vec<_>>().join(" ")
}

/// Block b is bit b mod 32, from the least significant, of word b div 32.
fn bit(map: &[u8], block: u32) -> bool {
    word(map, block as usize / 32) >> (block % 32) & 1 == 1
}

fn word(bytes: &[u8], index: usize) -> u32 {
    let word = &bytes[4 * index..4 * index + 4];
    u32::from_be_bytes([word[0], word[1], word[2], word[3]])
}

fn zero_ended(field: &[u8]) -> Option<&[u8]> {
    let length = field.iter().position(|&byte| byte == 0)?;
    Some(&field[..length])
}

fn out_of_range(block: u32, blocks: u32) -> &'static str {
    if (FIRST_DATA..blocks).contains(&block) {
        ""
    } else {
        ", out of range"
    }
}
