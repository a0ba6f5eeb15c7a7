//! JSON on one line.

use std::fmt::{self, Display, Formatter, Write};

/// The members of an object, in order.
pub type Members = Vec<(&'static str, Value)>;

/// A value.
#[derive(Debug)]
pub enum Value {
    Null,
    Flag(bool),
    Number(u64),
    Text(String),
    List(Vec<Value>),
    Object(Members),
}

impl Display for Value {
    fn fmt(&self, f: &mut Formatter<'_>) -> fmt::Result {
        match self {
            Self::Null => f.write_str("null"),
            Self::Flag(flag) => write!(f, "{flag}"),
            Self::Number(number) => write!(f, "{number}"),
            Self::Text(text) => string(f, text),
            Self::List(values) => enclosed(f, ['[', ']'], values, |f, value| value.fmt(f)),
            Self::Object(members) => enclosed(f, ['{', '}'], members, |f, (name, value)| {
                string(f, name)?;
                write!(f, ":{value}")
            }),
        }
    }
}

/// Items between brackets, with commas between them.
fn enclosed<T>(
    f: &mut Formatter<'_>,
    [open, close]: [char; 2],
    items: &[T],
    item: impl Fn(&mut Formatter<'_>, &T) -> fmt::Result,
) -> fmt::Result {
    f.write_char(open)?;
    for (index, each) in items.iter().enumerate() {
        f.write_str(if index == 0 { "" } else { "," })?;
        item(f, each)?;
    }
    f.write_char(close)
}

/// A string: the quote, the backslash and control characters are escaped.
fn string(f: &mut Formatter<'_>, text: &str) -> fmt::Result {
    f.write_char('"')?;
    for character in text.chars() {
        match character {
            '"' | '\\' => write!(f, "\\{character}")?,
            _ if character.is_control() => write!(f, "\\u{:04x}", u32::from(character))?,
            _ => f.write_char(character)?,
        }
    }
    f.write_char('"')
}

impl From<bool> for Value {
    fn from(flag: bool) -> Self {
        Self::Flag(flag)
    }
}

impl From<u32> for Value {
    fn from(number: u32) -> Self {
        Self::Number(number.into())
    }
}

impl From<u64> for Value {
    fn from(number: u64) -> Self {
        Self::Number(number)
    }
}

impl From<usize> for Value {
    fn from(number: usize) -> Self {
        Self::Number(number as u64)
    }
}

impl From<&str> for Value {
    fn from(text: &str) -> Self {
        Self::Text(text.to_string())
    }
}

impl From<String> for Value {
    fn from(text: String) -> Self {
        Self::Text(text)
    }
}

impl From<Members> for Value {
    fn from(members: Members) -> Self {
        Self::Object(members)
    }
}

impl<T: Into<Value>> From<Option<T>> for Value {
    fn from(value: Option<T>) -> Self {
        value.map_or(Self::Null, Into::into)
    }
}

impl<T: Into<Value>> FromIterator<T> for Value {
    fn from_iter<I: IntoIterator<Item = T>>(values: I) -> Self {
        Self::List(values.into_iter().map(Into::into).collect())
    }
}

#[cfg(test)]
mod tests {
    use super::*;

    #[test]
    fn values_of_each_kind() {
        let list: Value = [1u32, 20, u32::MAX].into_iter().collect();
        let empty: Value = Vec::<u32>::new().into_iter().collect();
        let members: Members = vec![
            ("flag", true.into()),
            ("none", None::<u32>.into()),
            ("number", u64::MAX.into()),
            ("list", list),
            ("empty", empty),
            ("object", Members::new().into()),
        ];
        let text = r#"{"flag":true,"none":null,"number":18446744073709551615,"list":[1,20,4294967295],"empty":[],"object":{}}"#;
        assert_eq!(Value::from(members).to_string(), text);
    }

    #[test]
    fn strings_are_escaped() {
        let text = Value::from("a\"b\\c/\n\0\u{1b}\u{7f}é€");
        assert_eq!(
            text.to_string(),
            "\"a\\\"b\\\\c/\\u000a\\u0000\\u001b\\u007fé€\""
        );
        assert_eq!(Value::from("").to_string(), "\"\"");
    }
}
