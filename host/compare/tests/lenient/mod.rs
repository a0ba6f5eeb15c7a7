//! Traces taken as a program would that reads numbers in its own way.

/// Reads a number and tells how many bytes it has.
pub type Number = fn(&[u8]) -> Option<(u32, usize)>;

/// The first number of bytes by its groups, whatever their form, and how many they are.
fn groups(bytes: &[u8]) -> Option<(u64, usize)> {
    let last = bytes.iter().take(9).position(|byte| byte & 0x80 == 0)?;
    let group = |(index, byte): (usize, &u8)| u64::from(byte & 0x7F) << (7 * index);
    let value = bytes[..=last].iter().enumerate().map(group).sum();
    Some((value, last + 1))
}

fn is_shortest(value: u64, count: usize) -> bool {
    count == 1 || value >> (7 * (count - 1)) != 0
}

/// Takes longer forms, of five groups at most.
pub fn longer(bytes: &[u8]) -> Option<(u32, usize)> {
    let (value, count) = groups(bytes)?;
    (count <= 5).then_some((u32::try_from(value).ok()?, count))
}

/// Takes longer forms of any number of groups.
pub fn longest(bytes: &[u8]) -> Option<(u32, usize)> {
    let (value, count) = groups(bytes)?;
    Some((u32::try_from(value).ok()?, count))
}

/// Takes any fifth group and drops the bits that are too many.
pub fn any_fifth(bytes: &[u8]) -> Option<(u32, usize)> {
    let (value, count) = groups(bytes)?;
    (count <= 5 && is_shortest(value, count)).then_some((value as u32, count))
}

/// What stands in a record behind its kind: n for a number, b for bytes; then the result.
const FORMS: [(&str, &str); 5] = [("bn", ""), ("b", ""), ("bnn", "b"), ("bnb", "n"), ("", "n")];

/// Writes records in their right form, from the first on that is malformed but can be taken so.
pub fn rewritten(trace: &[u8], number: Number) -> Vec<u8> {
    let mut out = Vec::new();
    let mut rest = trace;
    while !rest.is_empty() {
        let Some((record, length)) = record(rest, number) else {
            out.extend(rest);
            break;
        };
        out.extend(record);
        rest = &rest[length..];
    }
    out
}

/// The right form of the first record, and the length of the form in which it stands.
pub fn record(bytes: &[u8], number: Number) -> Option<(Vec<u8>, usize)> {
    let mut taken = Taken {
        bytes,
        at: 0,
        out: Vec::new(),
        number,
    };
    let kind = taken.number()?;
    let (arguments, result) = FORMS.get((kind as usize).checked_sub(1)?)?;
    taken.fields(arguments)?;
    if taken.number()? == 0 {
        taken.fields(result)?;
    }
    Some((taken.out, taken.at))
}

struct Taken<'a> {
    bytes: &'a [u8],
    at: usize,
    out: Vec<u8>,
    number: Number,
}

impl Taken<'_> {
    fn fields(&mut self, form: &str) -> Option<()> {
        for field in form.chars() {
            let number = self.number()? as usize;
            if field == 'b' {
                let bytes = self.bytes.get(self.at..)?.get(..number)?;
                self.out.extend(bytes);
                self.at += number;
            }
        }
        Some(())
    }

    fn number(&mut self) -> Option<u32> {
        let (number, length) = (self.number)(self.bytes.get(self.at..)?)?;
        self.at += length;
        let mut rest = number;
        while rest >= 0x80 {
            self.out.push(rest as u8 | 0x80);
            rest >>= 7;
        }
        self.out.push(rest as u8);
        Some(number)
    }
}
