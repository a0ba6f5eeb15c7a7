//! What a slot means.

use super::{out_of_range, word, zero_ended, Part};
use crate::json::Members;
use crate::words;

/// A slot as its bytes give it.
struct Slot<'a> {
    inode: u32,
    /// The name up to its zero, if it has one.
    name: Option<&'a [u8]>,
    /// The bytes behind that zero.
    leftovers: &'a [u8],
}

impl<'a> Slot<'a> {
    fn read(image: &'a [u8], number: u32) -> Self {
        let bytes = &image[Part::Slot(number).range()];
        let field = &bytes[4..];
        let name = zero_ended(field);
        let end = name.map_or(field.len(), |name| name.len() + 1);
        Self {
            inode: word(bytes, 0),
            name,
            leftovers: &field[end..],
        }
    }

    fn is_free(&self) -> bool {
        self.inode == 0 && self.name == Some(b"")
    }

    /// Whether it is free, used or neither.
    fn state(&self, blocks: u32) -> &'static str {
        let named = self.name.is_some_and(|name| !name.is_empty());
        match named && out_of_range(self.inode, blocks).is_empty() {
            _ if self.is_free() => "free",
            true => "used",
            false => "neither free nor used",
        }
    }

    /// The leftovers up to the last byte that is not zero.
    fn left(&self) -> &'a [u8] {
        let last = self.leftovers.iter().rposition(|&byte| byte != 0);
        last.map_or(&[], |last| &self.leftovers[..=last])
    }

    /// The same in hex and as text, on a line.
    fn leftovers(&self) -> String {
        let left = self.left();
        if left.is_empty() {
            return String::new();
        }
        let hex: String = left.iter().map(|byte| format!("{byte:02x} ")).collect();
        let text = left.iter().map(|&byte| match byte {
            b' '..=b'~' => char::from(byte),
            _ => '.',
        });
        format!("leftovers: {hex}|{}|\n", text.collect::<String>())
    }
}

/// Whether a slot is free, used or neither, what it holds, and its leftovers.
pub fn meaning(image: &[u8], number: u32, blocks: u32) -> String {
    let slot = Slot::read(image, number);
    let (state, leftovers) = (slot.state(blocks), slot.leftovers());
    if slot.is_free() {
        return format!("{state}\n{leftovers}");
    }
    let outside = out_of_range(slot.inode, blocks);
    let name = match slot.name {
        None => "without an end".to_string(),
        Some(b"") => "empty".to_string(),
        Some(name) => standing(image, number, name),
    };
    let inode = slot.inode;
    format!("{state}\ninode: block {inode}{outside}\nname: {name}\n{leftovers}")
}

/// The same for a program.
pub fn members(image: &[u8], number: u32, blocks: u32) -> Members {
    let slot = Slot::read(image, number);
    vec![
        ("state", slot.state(blocks).into()),
        ("inode", slot.inode.into()),
        ("name", slot.name.map(words::name).into()),
        ("leftovers", words::name(slot.left()).into()),
    ]
}

/// A name, and the lowest slot below that has it too.
fn standing(image: &[u8], number: u32, name: &[u8]) -> String {
    let same = |lower: &u32| Slot::read(image, *lower).name == Some(name);
    let repeated = (0..number).find(same);
    let repeated = repeated.map_or(String::new(), |lower| format!(", repeats slot {lower}"));
    format!("\"{}\"{repeated}", words::name(name))
}
