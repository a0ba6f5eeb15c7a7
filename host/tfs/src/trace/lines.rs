//! Records as lines for a person, and back.

use super::append;
use crate::escapes;
use proved::trace::{kind, Entry, Record};

/// A record as a line, without its end.
pub fn line(record: &Record<'_>) -> String {
    format!("{} -> {}", asked(record), answer(record))
}

/// What a line has before its arrow.
pub fn asked(record: &Record<'_>) -> String {
    let Record { entry, name, bytes } = record;
    let name = quoted(name);
    match entry.kind {
        kind::CREATE => format!("create {name} {}", entry.size),
        kind::REMOVE => format!("remove {name}"),
        kind::READ => format!("read {name} {} {}", entry.offset, entry.length),
        kind::WRITE => format!("write {name} {} {}", entry.offset, quoted(bytes)),
        _ => "free".to_string(),
    }
}

/// What a line has behind its arrow.
pub fn answer(record: &Record<'_>) -> String {
    let entry = &record.entry;
    match (entry.refusal, entry.kind) {
        (0, kind::CREATE | kind::REMOVE) => "granted".to_string(),
        (0, kind::READ) => quoted(record.bytes),
        (0, _) => entry.value.to_string(),
        (number, _) => format!("refused {number}"),
    }
}

/// Bytes in quotes: printable ASCII as it is, but the quote, the backslash and the rest as `\xNN`.
fn quoted(bytes: &[u8]) -> String {
    let mut shown = String::from('"');
    for &byte in bytes {
        match byte {
            b' '..=b'~' if !b"\"\\".contains(&byte) => shown.push(char::from(byte)),
            _ => shown += &format!("\\x{byte:02x}"),
        }
    }
    shown.push('"');
    shown
}

/// Adds the record of a line to a trace. A line that is empty or begins with # has none.
pub fn add(trace: &mut Vec<u8>, line: &[u8]) -> Result<(), String> {
    let words = words(line)?;
    if words.is_empty() {
        return Ok(());
    }
    let arrow = words.iter().position(|word| *word == Word::Plain("->"));
    let (asked, answered) = words.split_at(arrow.ok_or("no -> before the answer")?);
    let mut record = request(asked)?;
    expect(&mut record, &answered[1..])?;
    append(trace, &record).map_err(|_| "a number is 2^32 or more".to_string())
}

/// The request of a record, from the words before the arrow.
fn request<'a>(words: &'a [Word<'_>]) -> Result<Record<'a>, String> {
    use Word::{Plain, Quoted};
    let mut entry = Entry::default();
    let (name, bytes): (&[u8], &[u8]) = match words {
        [Plain("create"), Quoted(name), Plain(size)] => {
            (entry.kind, entry.size) = (kind::CREATE, number(size)?);
            (name, b"")
        }
        [Plain("remove"), Quoted(name)] => {
            entry.kind = kind::REMOVE;
            (name, b"")
        }
        [Plain("read"), Quoted(name), Plain(offset), Plain(length)] => {
            (entry.kind, entry.offset) = (kind::READ, number(offset)?);
            entry.length = number(length)?;
            (name, b"")
        }
        [Plain("write"), Quoted(name), Plain(offset), Quoted(bytes)] => {
            (entry.kind, entry.offset) = (kind::WRITE, number(offset)?);
            (name, bytes)
        }
        [Plain("free")] => {
            entry.kind = kind::FREE_BYTES;
            (b"", b"")
        }
        _ => return Err("no request of a trace before the ->".to_string()),
    };
    Ok(Record { entry, name, bytes })
}

/// Sets the answer of a record, from the words behind the arrow.
fn expect<'a>(record: &mut Record<'a>, words: &'a [Word<'_>]) -> Result<(), String> {
    use Word::{Plain, Quoted};
    match (record.entry.kind, words) {
        (_, [Plain("refused"), Plain(refusal)]) => {
            record.entry.refusal = number(refusal)?;
            if record.entry.refusal == 0 {
                return Err("0 is no refusal".to_string());
            }
        }
        (kind::CREATE | kind::REMOVE, [Plain("granted")]) => {}
        (kind::READ, [Quoted(bytes)]) => record.bytes = bytes,
        (kind::WRITE | kind::FREE_BYTES, [Plain(value)]) => record.entry.value = number(value)?,
        _ => return Err("no answer to this request behind the ->".to_string()),
    }
    Ok(())
}

fn number(word: &str) -> Result<u64, String> {
    let digits = word.bytes().all(|byte| byte.is_ascii_digit());
    let number = word.parse().ok().filter(|_| digits);
    number.ok_or_else(|| format!("{word}: no number"))
}

/// A word of a line.
#[derive(Debug, PartialEq, Eq)]
enum Word<'a> {
    Plain(&'a str),
    Quoted(Vec<u8>),
}

/// The words of a line, with spaces between them; none of a comment.
fn words(line: &[u8]) -> Result<Vec<Word<'_>>, String> {
    let mut words = Vec::new();
    let mut rest = line.trim_ascii();
    if rest.starts_with(b"#") {
        return Ok(words);
    }
    while let Some(first) = rest.first() {
        let (word, behind) = match first {
            b'"' => quoted_word(&rest[1..])?,
            _ => plain_word(rest)?,
        };
        if behind
            .first()
            .is_some_and(|byte| !byte.is_ascii_whitespace())
        {
            return Err("no space between two words".to_string());
        }
        words.push(word);
        rest = behind.trim_ascii_start();
    }
    Ok(words)
}

fn plain_word(line: &[u8]) -> Result<(Word<'_>, &[u8]), String> {
    let ends = |byte: &u8| byte.is_ascii_whitespace() || *byte == b'"';
    let end = line.iter().position(ends).unwrap_or(line.len());
    let (word, behind) = line.split_at(end);
    let word = std::str::from_utf8(word).map_err(|_| "a word is not UTF-8".to_string())?;
    Ok((Word::Plain(word), behind))
}

/// The bytes up to the closing quote, and what stands behind it.
fn quoted_word(line: &[u8]) -> Result<(Word<'_>, &[u8]), String> {
    let mut bytes = Vec::new();
    let mut rest = line;
    loop {
        match rest {
            [b'"', behind @ ..] => return Ok((Word::Quoted(bytes), behind)),
            [b'\\', behind @ ..] => {
                let (byte, behind) = escapes::byte(behind)?;
                bytes.push(byte);
                rest = behind;
            }
            [byte, behind @ ..] => {
                bytes.push(*byte);
                rest = behind;
            }
            [] => return Err("a quote is not closed".to_string()),
        }
    }
}

#[cfg(test)]
mod tests {
    use super::*;

    fn made(line: &str) -> Result<Vec<u8>, String> {
        let mut trace = Vec::new();
        add(&mut trace, line.as_bytes()).map(|()| trace)
    }

    #[test]
    fn a_record_comes_back_from_its_line() {
        let bytes: Vec<u8> = (0..=255).collect();
        for kind in 1..=5 {
            for refusal in [0, 1, u32::MAX.into()] {
                let entry = Entry {
                    kind,
                    size: 1,
                    offset: 22,
                    length: u32::MAX.into(),
                    refusal,
                    value: 333,
                };
                let record = Record {
                    entry,
                    name: &bytes,
                    bytes: &bytes[128..],
                };
                let mut trace = Vec::new();
                append(&mut trace, &record).unwrap();
                let (record, _) = proved::trace::read(&trace, 0).unwrap();
                let line = line(&record);
                assert!(line.bytes().all(|byte| (b' '..=b'~').contains(&byte)));
                assert_eq!(made(&line).as_ref(), Ok(&trace), "{line}");
            }
        }
    }

    #[test]
    fn spaces_and_comments_mean_nothing() {
        let trace = made("create \"A\" 10 -> granted").unwrap();
        assert_eq!(trace, b"\x01\x01A\x0a\0");
        assert_eq!(
            made(" \tcreate  \"A\"\t10  ->   granted \r").as_ref(),
            Ok(&trace)
        );
        assert_eq!(made("create \"\\x41\" 010 -> granted").as_ref(), Ok(&trace));
        for nothing in ["", "   ", "# create", "  # \"", "\r"] {
            assert_eq!(made(nothing), Ok(Vec::new()));
        }
    }

    const NO_REQUEST: &str = "no request of a trace before the ->";
    const NO_ANSWER: &str = "no answer to this request behind the ->";

    /// Bad lines, and why they are.
    const BAD: [(&str, &str); 27] = [
        ("create", "no -> before the answer"),
        ("format \"A\" -> granted", NO_REQUEST),
        ("create A 10 -> granted", NO_REQUEST),
        ("create \"A\" -> granted", NO_REQUEST),
        ("read \"A\" 0 \"4\" -> \"\"", NO_REQUEST),
        ("-> granted", NO_REQUEST),
        ("free ->", NO_ANSWER),
        ("free -> granted", "granted: no number"),
        ("remove \"A\" -> 5", NO_ANSWER),
        ("read \"A\" 0 4 -> 4", NO_ANSWER),
        ("write \"A\" 0 \"4\" -> \"4\"", NO_ANSWER),
        ("remove \"A\" -> granted -> granted", NO_ANSWER),
        ("free -> refused", "refused: no number"),
        ("free -> refused 0", "0 is no refusal"),
        ("free -> refused -1", "-1: no number"),
        ("free -> +1", "+1: no number"),
        ("free -> 0x10", "0x10: no number"),
        (
            "free -> 18446744073709551616",
            "18446744073709551616: no number",
        ),
        ("free -> 4294967296", "a number is 2^32 or more"),
        ("free -> refused 4294967296", "a number is 2^32 or more"),
        (
            "create \"A\" 4294967296 -> granted",
            "a number is 2^32 or more",
        ),
        ("remove \"A -> granted", "a quote is not closed"),
        (
            "remove \"A\\\" -> granted",
            "a backslash without xNN behind it",
        ),
        (
            "remove \"\\x4\" -> granted",
            "a backslash without xNN behind it",
        ),
        (
            "remove \"\\n\" -> granted",
            "a backslash without xNN behind it",
        ),
        ("remove \"A\"-> granted", "no space between two words"),
        ("remove\"A\" -> granted", "no space between two words"),
    ];

    #[test]
    fn a_bad_line_is_told() {
        for (line, why) in BAD {
            assert_eq!(made(line), Err(why.to_string()), "{line}");
        }
    }
}
