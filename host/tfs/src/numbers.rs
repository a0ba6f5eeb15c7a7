//! Numbers and sizes as people write them.

use crate::files::LONGEST_WAIT;
use std::ffi::OsStr;

/// Reads a number: decimal digits, or hex digits after 0x, in groups with "_" between them.
pub fn number(word: &OsStr) -> Result<u32, String> {
    let read = digits(word.to_str().unwrap_or_default());
    let (digits, radix) = read.ok_or_else(|| format!("{}: no number", word.display()))?;
    u32::from_str_radix(&digits, radix).map_err(|_| format!("{}: not below 2^32", word.display()))
}

/// Reads a number of bytes: a number, with k or KiB, m or MiB, g or GiB behind it or not. Every
/// unit counts 1,024 of the one before.
pub fn size(word: &OsStr) -> Result<u32, String> {
    let (text, shown) = (word.to_str().unwrap_or_default(), word.display());
    let end = text.find(|c: char| "kmg".contains(c.to_ascii_lowercase()));
    let (number, unit) = text.split_at(end.unwrap_or(text.len()));
    let none = || format!("{shown}: no size in bytes");
    let (digits, radix) = digits(number).ok_or_else(none)?;
    let times: u32 = match unit.to_ascii_lowercase().as_str() {
        "" => 1,
        "k" | "kib" => 1 << 10,
        "m" | "mib" => 1 << 20,
        "g" | "gib" => 1 << 30,
        "kb" | "mb" | "gb" => return Err(ambiguous(word, unit)),
        _ => return Err(none()),
    };
    let number = u32::from_str_radix(&digits, radix).ok();
    let size = number.and_then(|number| number.checked_mul(times));
    size.ok_or_else(|| format!("{shown}: not below 4 GiB"))
}

/// Reads a number of seconds to wait.
pub fn seconds(word: &OsStr) -> Result<u32, String> {
    let seconds = number(word).ok().filter(|seconds| *seconds <= LONGEST_WAIT);
    seconds.ok_or_else(|| format!("{}: no number from 0 to {LONGEST_WAIT}", word.display()))
}

fn ambiguous(word: &OsStr, unit: &str) -> String {
    let (shown, letter) = (word.display(), &unit[..1]);
    let right = format!("{letter} or {}iB", letter.to_ascii_uppercase());
    format!("{shown}: {unit} may count in thousands or in 1,024; write {right} for 1,024")
}

/// The digits of a number without their groups, and their base.
fn digits(text: &str) -> Option<(String, u32)> {
    let (digits, radix) = match text.strip_prefix("0x") {
        Some(digits) => (digits, 16),
        None => (text, 10),
    };
    let group = |group: &str| !group.is_empty() && group.chars().all(|c| c.is_digit(radix));
    let right = digits.split('_').all(group);
    right.then(|| (digits.replace('_', ""), radix))
}

#[cfg(test)]
mod tests {
    use super::*;

    #[test]
    fn numbers_are_read() {
        for (text, number) in [
            ("0", 0),
            ("007", 7),
            ("65_536", 65_536),
            ("4294967295", u32::MAX),
            ("0x3", 3),
            ("0xffff_FFFF", u32::MAX),
        ] {
            assert_eq!(super::number(OsStr::new(text)), Ok(number), "{text}");
        }
    }

    #[test]
    fn what_is_no_number_is_told() {
        for text in [
            "", "x", "-1", "+1", "1 ", "0x", "0X1", "0x1g", "_1", "1_", "1__0", "0x_1", "1k", "1.5",
        ] {
            let message = format!("{text}: no number");
            assert_eq!(number(OsStr::new(text)), Err(message));
        }
    }

    #[test]
    fn a_number_is_below_2_to_the_32() {
        for text in ["4294967296", "0x1_0000_0000", "99999999999999999999999"] {
            let message = format!("{text}: not below 2^32");
            assert_eq!(number(OsStr::new(text)), Err(message));
        }
    }

    #[test]
    fn sizes_are_read() {
        for (text, bytes) in [
            ("1536", 1536),
            ("0x600", 1536),
            ("64k", 65_536),
            ("64K", 65_536),
            ("64KiB", 65_536),
            ("64kib", 65_536),
            ("0x40KIB", 65_536),
            ("1_024m", 1 << 30),
            ("2MiB", 2 << 20),
            ("3G", 3 << 30),
            ("3gib", 3 << 30),
            ("0k", 0),
        ] {
            assert_eq!(size(OsStr::new(text)), Ok(bytes), "{text}");
        }
    }

    #[test]
    fn what_is_no_size_is_told() {
        for text in [
            "", "x", "K", "KiB", "-1", "+1k", "1.5M", "64 K", "64 KiB", "64kk", "64Ki", "64B",
            "64t", "1_k",
        ] {
            let message = format!("{text}: no size in bytes");
            assert_eq!(size(OsStr::new(text)), Err(message));
        }
    }

    #[test]
    fn a_size_is_below_4_gib() {
        for text in [
            "4294967296",
            "4G",
            "4096MiB",
            "4194304k",
            "0x100000000",
            "99999999999999999999G",
        ] {
            let message = format!("{text}: not below 4 GiB");
            assert_eq!(size(OsStr::new(text)), Err(message));
        }
    }

    #[test]
    fn units_of_a_thousand_are_ambiguous() {
        let thousands = "may count in thousands or in 1,024; write";
        for (text, right) in [
            ("64kB", format!("64kB: kB {thousands} k or KiB for 1,024")),
            ("64KB", format!("64KB: KB {thousands} K or KiB for 1,024")),
            ("1mb", format!("1mb: mb {thousands} m or MiB for 1,024")),
            ("1GB", format!("1GB: GB {thousands} G or GiB for 1,024")),
        ] {
            assert_eq!(size(OsStr::new(text)), Err(right));
        }
    }
}
