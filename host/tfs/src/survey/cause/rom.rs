//! The causes of refusals by a romfs image.

mod header;

use super::Asked;
use crate::words;
use header::{word, zero_ended, Header, Rom};
use proved::Refusal;

const SHORTEST: usize = 32;

/// The cause of a refusal, where the image shows it.
pub fn cause(image: &[u8], refusal: Refusal, asked: Asked<'_>) -> Option<String> {
    let Refusal { number, place } = refusal;
    match number {
        21 => too_short(image.len()),
        23 => full_size(image),
        24 => volume_sum(image),
        25 => endless_label(image),
        26..=29 => at_header(&Rom::read(image)?, number, place),
        30 | 31 => of_request(&Rom::read(image)?, number, asked),
        _ => None,
    }
}

fn too_short(length: usize) -> Option<String> {
    let bytes = words::count(length, "byte");
    (length < SHORTEST).then(|| format!("the image has {bytes}, under {SHORTEST}"))
}

fn endless_label(image: &[u8]) -> Option<String> {
    let full = word(image, 8)?;
    let label = zero_ended(image.get(..full as usize)?, 16);
    let cause = || format!("the volume name has no end before {full}, where the image ends");
    label.is_none().then(cause)
}

fn full_size(image: &[u8]) -> Option<String> {
    let (full, length) = (word(image, 8)?, image.len());
    let why = if (full as usize) < SHORTEST {
        format!("under {SHORTEST}")
    } else if full as usize > length {
        format!("and the image has {length} bytes")
    } else if !full.is_multiple_of(16) {
        "no multiple of 16".to_string()
    } else {
        return None;
    };
    Some(format!("the full size is {full}, {why}"))
}

fn volume_sum(image: &[u8]) -> Option<String> {
    let count = word(image, 8)?.min(512);
    let sum = header::sum(image.get(..count as usize)?);
    (sum != 0).then(|| {
        format!("the first {count} bytes have a wrong checksum: they add up to {sum:#010x}, not 0")
    })
}

/// The cause of a refusal at a header that the walk comes to.
fn at_header(rom: &Rom<'_>, number: u32, at: u32) -> Option<String> {
    let bound = rom.bound(at)?;
    if number == 26 {
        let wrong = unsound(rom, at, bound)?;
        return Some(format!("header at {at} has {wrong}"));
    }
    let header = Header::read(rom.image, at, bound)?;
    let wrong = match number {
        27 => header
            .next_cause(bound)
            .or_else(|| header.first_cause(bound))?,
        28 => header.depth_cause()?,
        _ => link_cause(rom, &header)?,
    };
    Some(format!("{} {wrong}", header.called()))
}

/// What is wrong with a header by itself, in the order of the rule.
fn unsound(rom: &Rom<'_>, at: u32, bound: u32) -> Option<String> {
    let part = rom.image.get(at as usize..bound as usize)?;
    if zero_ended(part, 16).is_none() {
        return Some(format!(
            "a name without an end before {bound}, where its list ends"
        ));
    }
    let Some(header) = Header::read(rom.image, at, bound) else {
        let size = word(part, 8)?;
        return Some(format!(
            "size {size}, so it ends past {bound}, where its list ends"
        ));
    };
    header.cause(rom.image)
}

/// What a hard link, or a directory named "." or "..", leads to instead of a header.
fn link_cause(rom: &Rom<'_>, link: &Header<'_>) -> Option<String> {
    let aim = link.info;
    match rom.reached(aim) {
        _ if !link.leads() => None,
        None => Some(format!("leads to {aim}, where no header is")),
        Some(other) if link.is_hard_link() && other.is_hard_link() => {
            Some(format!("leads to {aim}, which is a hard link too"))
        }
        Some(_) => None,
    }
}

/// The cause of a refusal by an accepted image.
fn of_request(rom: &Rom<'_>, number: u32, asked: Asked<'_>) -> Option<String> {
    match (number, asked) {
        (30, Asked::Find(directory, name)) => not_found(rom, directory, name),
        (31, Asked::Find(0, _)) => None,
        (31, Asked::Content(0)) => Some("the root directory is no file".to_string()),
        (31, Asked::Find(at, _)) => unfit(rom, at, |header| header.is_directory(), "no directory"),
        (31, Asked::Header(at)) => unfit(rom, at, |_| true, ""),
        (31, Asked::Content(at)) => {
            let misses = "no file and no symbolic link";
            unfit(rom, at, |header| header.has_content(), misses)
        }
        _ => None,
    }
}

fn not_found(rom: &Rom<'_>, directory: u32, name: &[u8]) -> Option<String> {
    let (called, first) = match directory {
        0 => ("the root directory".to_string(), rom.root),
        at => {
            let header = rom.reached(at).filter(Header::is_directory)?;
            (header.called(), header.info)
        }
    };
    let missing = rom.list(first).all(|header| header.name != name);
    missing.then(|| format!("{called} has no entry {}", words::start_of_name(name)))
}

/// Why there is no header of a wanted kind at an offset.
fn unfit(rom: &Rom<'_>, at: u32, fits: fn(&Header<'_>) -> bool, misses: &str) -> Option<String> {
    match rom.reached(at) {
        None => Some(format!("at {at} is no header of the tree")),
        Some(header) => (!fits(&header)).then(|| format!("{} is {misses}", header.called())),
    }
}

#[cfg(test)]
mod tests;
