//! Records for a program.

use crate::json::{Members, Value};
use crate::words;
use proved::trace::{kind, Record};

/// The members of a record: what was asked, then what was answered.
pub fn of(record: &Record<'_>) -> Members {
    let mut members = asked(record);
    members.extend(match record.entry.refusal {
        0 => answer(record),
        number => Some(("refused", number.into())),
    });
    members
}

fn asked(record: &Record<'_>) -> Members {
    let Record { entry, name, bytes } = record;
    let (request, rest): (&str, Members) = match entry.kind {
        kind::CREATE => ("create", vec![("size", entry.size.into())]),
        kind::REMOVE => ("remove", Vec::new()),
        kind::READ => {
            let (offset, length) = (entry.offset.into(), entry.length.into());
            ("read", vec![("offset", offset), ("length", length)])
        }
        kind::WRITE => {
            let (offset, bytes) = (entry.offset.into(), shown(bytes));
            ("write", vec![("offset", offset), ("bytes", bytes)])
        }
        _ => return vec![("request", "free".into())],
    };
    let named: Members = vec![("request", request.into()), ("name", shown(name))];
    named.into_iter().chain(rest).collect()
}

/// What a granted request gives besides being granted, if it gives something.
fn answer(record: &Record<'_>) -> Option<(&'static str, Value)> {
    let value = record.entry.value;
    match record.entry.kind {
        kind::CREATE | kind::REMOVE => None,
        kind::READ => Some(("bytes", shown(record.bytes))),
        kind::WRITE => Some(("count", value.into())),
        _ => Some(("free", value.into())),
    }
}

fn shown(bytes: &[u8]) -> Value {
    words::name(bytes).into()
}
