//! What the proved crates declare for C: the `repr(C)` structs and the `extern "C"` functions of
//! `crates/*_c/src/lib.rt`, which the archives are made of.

use crate::compiler::root;
use std::fs;

/// A struct under its name in C, with its fields in their order.
#[derive(Debug)]
pub struct Struct {
    pub name: String,
    pub fields: Vec<(String, Kind)>,
}

/// The type of a field.
#[derive(Debug)]
pub enum Kind {
    /// A number of so many bytes.
    Number(usize),
    /// So many numbers of so many bytes.
    Array(usize, usize),
    /// A struct that is declared before.
    Struct(String),
}

/// A function: the name, the types of its parameters in C, and that of its answer.
#[derive(Debug)]
pub struct Function {
    pub name: String,
    pub parameters: Vec<String>,
    pub answer: String,
}

/// The source of a proved crate.
fn source(crate_name: &str) -> String {
    let path = root().join(format!("crates/{crate_name}/src/lib.rt"));
    fs::read_to_string(&path).unwrap_or_else(|error| panic!("{}: {error}", path.display()))
}

/// `TfsResult` as C writes it, `tfs_result`.
fn in_c(name: &str) -> String {
    let mut snake = String::new();
    for letter in name.chars() {
        if letter.is_uppercase() && !snake.is_empty() {
            snake.push('_');
        }
        snake.extend(letter.to_lowercase());
    }
    snake
}

/// What stands between two texts, and what follows.
fn between<'a>(text: &'a str, from: &str, to: &str) -> Option<(&'a str, &'a str)> {
    text.split_once(from)?.1.split_once(to)
}

/// The length of an array: a number, or a constant of the crate that it is taken from.
fn length(text: &str, of: &str) -> usize {
    if let Ok(number) = of.parse() {
        return number;
    }
    let taken = text.lines().find_map(|line| {
        let used = line.strip_prefix("use ")?.strip_suffix(';')?;
        let (from, names) = used.split_once("::")?;
        let mut names = names.trim_matches(['{', '}']).split(", ");
        names.any(|name| name == of).then_some(from)
    });
    let there = source(taken.expect("the crate of a constant"));
    let value = between(&there, &format!("pub const {of}: usize = "), ";")
        .expect("a constant")
        .0;
    value.parse().expect("a number")
}

/// The bytes of a number.
fn width(kind: &str) -> Option<usize> {
    match kind {
        "u8" => Some(1),
        "u16" => Some(2),
        "u32" => Some(4),
        "u64" => Some(8),
        _ => None,
    }
}

/// The type of a field.
fn kind(text: &str, of: &str) -> Kind {
    if let Some(bytes) = width(of) {
        return Kind::Number(bytes);
    }
    match between(of, "[", "]").and_then(|(inner, _)| inner.split_once("; ")) {
        Some((item, count)) => Kind::Array(length(text, count), width(item).expect("a number")),
        None => Kind::Struct(in_c(of)),
    }
}

/// A text behind the lines of attributes that it begins with.
fn past_attributes(mut text: &str) -> &str {
    while text.starts_with("#[") {
        text = text.split_once('\n').expect("an item").1;
    }
    text
}

/// The structs that a crate declares for C.
pub fn structs(crate_name: &str) -> Vec<Struct> {
    let text = source(crate_name);
    let mut found = Vec::new();
    let mut rest = text.as_str();
    while let Some((_, item)) = rest.split_once("#[repr(C)]\n") {
        let item = past_attributes(item).strip_prefix("pub struct ");
        let (declared, after) = item
            .and_then(|item| item.split_once("\n}"))
            .expect("a struct");
        let (name, fields) = declared.split_once(" {\n").expect("fields");
        let field = |line: &str| {
            let line = line.trim().strip_prefix("pub ")?.strip_suffix(',')?;
            let (name, of) = line.split_once(": ")?;
            Some((name.to_string(), kind(&text, of)))
        };
        let fields = fields.lines().map(|line| field(line).expect("a field"));
        found.push(Struct {
            name: in_c(name),
            fields: fields.collect(),
        });
        rest = after;
    }
    found
}

/// The parameters in C that one in the proved crate passes as.
fn passed(of: &str) -> Vec<String> {
    let types: &[&str] = match of {
        "&[u8]" => &["const uint8_t *", "size_t"],
        "&mut [u8]" => &["uint8_t *", "size_t"],
        "&[u16; VALUES]" => &["const uint16_t *"],
        "u32" => &["uint32_t"],
        "usize" => &["size_t"],
        _ => return vec![in_c(of)],
    };
    types.iter().map(|name| name.to_string()).collect()
}

/// The functions that a crate declares for C.
pub fn functions(crate_name: &str) -> Vec<Function> {
    let text = source(crate_name);
    let mut found = Vec::new();
    let mut rest = text.as_str();
    while let Some((declared, after)) = between(rest, "pub extern \"C\" fn ", "\n    ensures") {
        let (name, declared) = declared.split_once('(').expect("parameters");
        let (parameters, answer) = declared.split_once(") -> ").expect("an answer");
        let types = parameters
            .split(',')
            .filter_map(|parameter| parameter.split_once(": "));
        found.push(Function {
            name: name.to_string(),
            parameters: types.flat_map(|(_, of)| passed(of.trim())).collect(),
            answer: in_c(answer.trim()),
        });
        rest = after;
    }
    found
}
