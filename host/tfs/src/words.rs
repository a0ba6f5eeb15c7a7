//! Refusals and names in words.

use proved::Refusal;
use std::fmt::Display;

/// The greatest number of bytes of a name in a message.
const SHOWN: usize = 64;

/// A refusal in the words of its rule, with its place; `survey::cause` has those of the one cause.
pub fn refusal(refusal: Refusal) -> String {
    let Refusal { number, place } = refusal;
    match number {
        4..=7 => at_place(number, place),
        26..=29 => at_header(number, place),
        _ => plain(number).to_string(),
    }
}

/// Refusals of a TFS volume with a slot or a block as their place.
fn at_place(number: u32, place: u32) -> String {
    match number {
        4 => {
            format!("slot {place} is neither free nor used, or repeats the name of a lower slot")
        }
        5 => format!("slot {place} has an inode with a size or a block number out of range"),
        6 => format!("block {place} is claimed twice"),
        _ => format!("block {place} has a map bit that differs from its use"),
    }
}

/// Refusals of a romfs image with the offset of a header as their place.
fn at_header(number: u32, place: u32) -> String {
    match number {
        26 => format!("header at {place} has a wrong end, name, checksum, spec.info or size"),
        27 => format!("header at {place} has a next or first header that breaks nesting"),
        28 => format!("directory at {place} has a list at depth 9"),
        _ => format!("header at {place} links to no header that it may link to"),
    }
}

/// Refusals without a place.
fn plain(number: u32) -> &'static str {
    match number {
        1 => "the image is under 1,536 bytes",
        2 => "the magic number is not 3745",
        3 => "the volume name has no zero in its 16 bytes",
        8 => "the name is empty, over 15 bytes, or holds a zero byte",
        9 => "the size is over 65,024 bytes",
        10 => "the name stands already",
        11 => "there is no free slot",
        12 => "there are too few free blocks",
        13 => "no file has this name",
        14 => "the slot is over 24",
        15 => "the offset is greater than the file's size",
        21 => "the image is under 32 bytes",
        22 => "the image does not begin with \"-rom1fs-\"",
        23 => "the full size is under 32, over the image's length, or no multiple of 16",
        24 => "the checksum of the volume header is wrong",
        25 => "the volume name has no end",
        30 => "the directory has no entry of this name",
        31 => "not a header of the tree, not a directory, or not a file with content",
        32 => "there is no such store, or the buffer is under 512 bytes",
        33 => "the record has no room, or a number or a length of 2^32 or more",
        34 => "board number 0: the lid was opened, or a first store was cut off",
        35 => "the timing file has another size than 64 bytes",
        36 => "the timing file is another board's",
        37 => "the timing file is another memory maker's",
        _ => "for a reason that this tool does not know",
    }
}

/// A number of things, such as "1 byte" and "2 bytes".
pub fn count(number: impl Display, thing: &str) -> String {
    match number.to_string().as_str() {
        "1" => format!("1 {thing}"),
        number => format!("{number} {thing}s"),
    }
}

/// A name on one line: printable ASCII as it is, the backslash and any other byte as `\xNN`.
pub fn name(bytes: &[u8]) -> String {
    let mut shown = String::new();
    for &byte in bytes {
        match byte {
            b' '..=b'~' if byte != b'\\' => shown.push(char::from(byte)),
            _ => shown += &format!("\\x{byte:02x}"),
        }
    }
    shown
}

/// A name for a message: of a long one its start and its length.
pub fn start_of_name(bytes: &[u8]) -> String {
    match bytes.get(..SHOWN) {
        Some(start) if bytes.len() > SHOWN => {
            format!("{}... ({} bytes)", name(start), bytes.len())
        }
        _ => name(bytes),
    }
}

#[cfg(test)]
mod tests {
    use super::*;

    #[test]
    fn every_refusal_has_words_of_its_own() {
        let unknown = plain(0);
        let mut seen = Vec::new();
        for number in (1..=15).chain(21..=37) {
            let words = refusal(Refusal { number, place: 77 });
            let placed = matches!(number, 4..=7 | 26..=29);
            assert_eq!(words.contains("77"), placed, "{number}");
            assert_ne!(words, unknown, "{number}");
            assert!(!seen.contains(&words), "{number}");
            seen.push(words);
        }
    }

    #[test]
    fn one_thing_is_not_several() {
        let counted = [0, 1, 2].map(|number| count(number, "byte"));
        assert_eq!(counted, ["0 bytes", "1 byte", "2 bytes"]);
    }

    #[test]
    fn names_stay_on_one_line() {
        assert_eq!(name(b"boot cfg~"), "boot cfg~");
        assert_eq!(name(b"a/b\\c\n\xff"), "a/b\\x5cc\\x0a\\xff");
    }

    #[test]
    fn a_long_name_is_cut_in_a_message() {
        assert_eq!(start_of_name(&[b'n'; 64]), "n".repeat(64));
        let cut = "n".repeat(64) + "... (65 bytes)";
        assert_eq!(start_of_name(&[b'n'; 65]), cut);
    }
}
