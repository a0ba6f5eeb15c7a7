//! Writes test cases with their answers into one packed file for an outside runner.
//!
//! ```text
//! pack tfs   OUT [--seed S] [--cases N] [--large]
//! pack romfs OUT [--seed S] [--cases N]
//! ```
//!
//! The same arguments give the same file. Defaults are seed 1 and 300 cases; `--large` puts
//! some cases on a volume of 4096 blocks, 2 MiB each, at the end.
//!
//! # The packed file
//!
//! A *number* is four bytes and a *hash* eight, both big-endian. *Bytes* are a number, which
//! is their length, and then so many bytes. The file is a number, which is the count of cases,
//! and then the cases one after another with nothing between or behind them. Each case has the
//! same parts in the same order, and the parts that its request has no use for are 0, empty or
//! anything; only the requests whose numbers stand beside a part have it:
//!
//! | Part | Form | Meaning |
//! |---|---|---|
//! | request | one byte | which it is, see below |
//! | number | number | size, offset, slot, position, directory or header |
//! | name | bytes | name given to the request |
//! | buffer | bytes | buffer as it is before the request; a trace where the request has one |
//! | image | bytes | image as it is before the request |
//! | k (12, 13, 14) | two numbers, the higher 32 bits first | which store, from 1 |
//! | bytes (12, 13, 14) | bytes | what is to be written; empty but for 14 |
//! | board, maker (22 to 26) | two numbers | board number, number of the memory maker |
//! | values (22 to 26) | 28 numbers | values to be stored |
//! | k (22 to 26) | two numbers, the higher 32 bits first | which store, from 1 |
//! | refusal | number | number of the refusal, 0 if granted |
//! | place | number | place of the refusal, 0 if granted |
//! | values | count as a number, then so many numbers | result, no values if refused |
//! | text | bytes | name or content of the result, empty if refused |
//! | after | hash | FNV-1a, 64 bits, of the image and then the buffer after the request |
//!
//! The hash stands in every case. A refused request leaves image and buffer as they were, and
//! so do the requests marked with a dash. A boot's buffer is noise as long as its values, and
//! afterwards the values, two bytes each: those that it gives, or zeros where it is refused.
//!
//! | Number | Request | Uses | Values, text if granted | Changes |
//! |---|---|---|---|---|
//! | 1 | TFS check | | | - |
//! | 2 | TFS format | name | | image |
//! | 3 | TFS create | number = size, name | inode number | image |
//! | 4 | TFS remove | name | | image |
//! | 5 | TFS read | number = offset, name, buffer | count, blocks met | buffer |
//! | 6 | TFS write | number = offset, name, buffer | count, blocks met | image |
//! | 7 | TFS list | number = slot | 0 for a free slot; else 1, inode number, size, and text = name | - |
//! | 8 | TFS free bytes | | free bytes | - |
//! | 9 | TFS replay | buffer = trace | outcome (0 all replayed, 1 malformed, 2 differs), number of records or of the record | image |
//! | 12 | TFS create's k-th store | number = size, name, buffer, k | number of the block | buffer |
//! | 13 | TFS remove's k-th store | name, buffer, k | number of the block | buffer |
//! | 14 | TFS write's k-th store | number = offset, name, buffer, k, bytes | number of the block | buffer |
//! | 15 | TFS mend | | | image |
//! | 17 | romfs check | | | - |
//! | 18 | romfs find | number = directory, name | offset of the header | - |
//! | 19 | romfs entry | number = header | type, executable (0 or 1), spec.info, size, next, name length | - |
//! | 20 | romfs content length | number = header | length | - |
//! | 21 | romfs content | number = header | length, and text = content; both 0 and empty where it is refused, never a refusal | - |
//! | 22 | timing store | board, maker, values | | image |
//! | 23 | timing open lid | | | image |
//! | 24 | timing boot | board, maker, buffer | | buffer |
//! | 25 | timing store's k-th store | board, maker, values, k, buffer | number of the block | buffer |
//! | 26 | timing open lid's k-th store | k, buffer | number of the block | buffer |

#![forbid(unsafe_code)]

use std::env;
use std::fs;
use std::process::ExitCode;

use generate::cases::{romfs_cases, stored, tfs_cases, Case};
use generate::timing::is_on_file;
use reference::request::Arguments;

const USAGE: &str = "usage: pack tfs|romfs OUT [--seed S] [--cases N] [--large]";

struct Options {
    system: String,
    out: String,
    seed: u64,
    cases: usize,
    large: bool,
}

fn parse(mut words: impl Iterator<Item = String>) -> Option<Options> {
    let (system, out) = (words.next()?, words.next()?);
    let mut options = Options {
        system,
        out,
        seed: 1,
        cases: 300,
        large: false,
    };
    while let Some(word) = words.next() {
        match &word[..] {
            "--seed" => options.seed = words.next()?.parse().ok()?,
            "--cases" => options.cases = words.next()?.parse().ok()?,
            "--large" => options.large = true,
            _ => return None,
        }
    }
    Some(options)
}

fn main() -> ExitCode {
    let Some(options) = parse(env::args().skip(1)) else {
        eprintln!("{USAGE}");
        return ExitCode::from(2);
    };
    let cases = match &options.system[..] {
        "tfs" => tfs_cases(options.seed, options.cases, options.large),
        "romfs" => romfs_cases(options.seed, options.cases),
        _ => {
            eprintln!("{USAGE}");
            return ExitCode::from(2);
        }
    };
    let packed = pack(&cases);
    if let Err(error) = fs::write(&options.out, &packed) {
        eprintln!("{}: {error}", options.out);
        return ExitCode::FAILURE;
    }
    println!("{} cases, {} bytes", cases.len(), packed.len());
    ExitCode::SUCCESS
}

fn pack(cases: &[Case]) -> Vec<u8> {
    let mut out = Vec::new();
    put_number(&mut out, cases.len() as u32);
    for case in cases {
        put_case(&mut out, case);
    }
    out
}

fn put_case(out: &mut Vec<u8>, case: &Case) {
    let Case {
        request,
        arguments,
        image,
        answer,
    } = case;
    out.push(*request as u8);
    put_number(out, arguments.number);
    put_bytes(out, &arguments.name);
    put_bytes(out, &arguments.buffer);
    put_bytes(out, image);
    if stored(*request).is_some() {
        out.extend_from_slice(&(arguments.k as u64).to_be_bytes());
        put_bytes(out, &arguments.bytes);
    }
    if is_on_file(*request) {
        put_timing(out, arguments);
    }
    put_number(out, answer.number);
    put_number(out, answer.place);
    put_number(out, answer.values.len() as u32);
    for value in &answer.values {
        put_number(out, *value);
    }
    put_bytes(out, &answer.text);
    out.extend_from_slice(&answer.hash.to_be_bytes());
}

fn put_timing(out: &mut Vec<u8>, arguments: &Arguments) {
    put_number(out, arguments.timing.board);
    put_number(out, arguments.timing.maker);
    for value in arguments.timing.values {
        put_number(out, value.into());
    }
    out.extend_from_slice(&(arguments.k as u64).to_be_bytes());
}

fn put_number(out: &mut Vec<u8>, number: u32) {
    out.extend_from_slice(&number.to_be_bytes());
}

fn put_bytes(out: &mut Vec<u8>, bytes: &[u8]) {
    put_number(out, bytes.len() as u32);
    out.extend_from_slice(bytes);
}

#[cfg(test)]
mod tests {
    use super::*;

    #[test]
    fn a_case_has_the_written_form() {
        use reference::request::{Arguments, Request};
        let arguments = Arguments {
            number: 9,
            name: b"n".to_vec(),
            buffer: vec![0xCD, 0xEF],
            ..Arguments::default()
        };
        let packed = pack(&[Case::new(Request::TfsRead, arguments, &[0xAB])]);
        let mut expected = vec![0, 0, 0, 1, 5, 0, 0, 0, 9, 0, 0, 0, 1, b'n'];
        expected.extend([0, 0, 0, 2, 0xCD, 0xEF, 0, 0, 0, 1, 0xAB]);
        expected.extend([0, 0, 0, 1, 0, 0, 0, 0, 0, 0, 0, 0, 0, 0, 0, 0]);
        let hash = [0xAB, 0xCD, 0xEF]
            .iter()
            .fold(0xCBF2_9CE4_8422_2325u64, |hash, byte| {
                (hash ^ byte).wrapping_mul(0x0100_0000_01B3)
            });
        expected.extend(hash.to_be_bytes());
        assert_eq!(packed, expected);
    }

    #[test]
    fn a_granted_read_has_two_values() {
        use reference::request::{Arguments, Request};
        let mut image = vec![0; 6 * 512];
        reference::tfs::format(&mut image, b"").unwrap();
        reference::tfs::create(&mut image, b"n", 600).unwrap();
        let arguments = Arguments {
            number: 510,
            name: b"n".to_vec(),
            buffer: vec![0xCD; 3],
            ..Arguments::default()
        };
        let case = Case::new(Request::TfsRead, arguments, &image);
        let packed = pack(std::slice::from_ref(&case));
        let mut end = [0u32, 0, 2, 3, 2, 0].map(u32::to_be_bytes).concat();
        end.extend(case.answer.hash.to_be_bytes());
        assert!(packed.ends_with(&end));
    }

    #[test]
    fn a_store_has_its_number_and_the_bytes_to_be_written() {
        use reference::request::{Arguments, Request};
        let arguments = Arguments {
            number: 9,
            name: b"n".to_vec(),
            buffer: vec![0xCD],
            k: 0x0102_0304_0506_0708,
            bytes: vec![0xEF, 0x12],
            ..Arguments::default()
        };
        for (request, number) in [(Request::TfsWriteStore, 14), (Request::TfsMend, 15)] {
            let case = Case::new(request, arguments.clone(), &[0xAB]);
            let mut expected = vec![0, 0, 0, 1, number, 0, 0, 0, 9, 0, 0, 0, 1, b'n'];
            expected.extend([0, 0, 0, 1, 0xCD, 0, 0, 0, 1, 0xAB]);
            if number == 14 {
                expected.extend([1, 2, 3, 4, 5, 6, 7, 8, 0, 0, 0, 2, 0xEF, 0x12]);
            }
            expected.extend([1u32, 0, 0, 0].map(u32::to_be_bytes).concat());
            expected.extend(case.answer.hash.to_be_bytes());
            assert_eq!(pack(&[case]), expected);
        }
    }

    #[test]
    fn a_request_on_the_timing_file_has_its_numbers_and_values() {
        use reference::request::Request;
        let mut arguments = Arguments {
            buffer: vec![0xCD],
            k: 0x0102_0304_0506_0708,
            ..Arguments::default()
        };
        (arguments.timing.board, arguments.timing.maker) = (0x0A0B_0C0D, 0x1A1B_1C1D);
        arguments.timing.values = std::array::from_fn(|index| 0x0100 + index as u16);
        let case = Case::new(Request::TimingStoreBlock, arguments, &[0xAB]);
        let mut expected = vec![0, 0, 0, 1, 25, 0, 0, 0, 0, 0, 0, 0, 0];
        expected.extend([0, 0, 0, 1, 0xCD, 0, 0, 0, 1, 0xAB]);
        expected.extend([0x0A, 0x0B, 0x0C, 0x0D, 0x1A, 0x1B, 0x1C, 0x1D]);
        (0..28).for_each(|index| expected.extend([0, 0, 1, index]));
        expected.extend([1, 2, 3, 4, 5, 6, 7, 8]);
        expected.extend([1u32, 0, 0, 0].map(u32::to_be_bytes).concat());
        expected.extend(case.answer.hash.to_be_bytes());
        assert_eq!(pack(&[case]), expected);
    }

    #[test]
    fn options_have_defaults_and_are_checked() {
        let words = |text: &str| {
            text.split(' ')
                .map(str::to_owned)
                .collect::<Vec<_>>()
                .into_iter()
        };
        let options = parse(words("tfs out --cases 5")).unwrap();
        assert_eq!((options.seed, options.cases, options.large), (1, 5, false));
        assert!(parse(words("tfs")).is_none());
        assert!(parse(words("tfs out --seed x")).is_none());
        assert!(parse(words("tfs out --other")).is_none());
    }
}
