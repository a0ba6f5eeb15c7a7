//! The structs and functions of the headers and of Rust are those that the library declares.

use crate::compiler::{compile, folder, told, HEADERS, LIBRARIES, STRICT};
use crate::declared::{functions, structs, Kind, Struct};
use proved::c;
use std::collections::BTreeMap;
use std::fmt::Write;
use std::mem::offset_of;

/// A size, and for each field its name and offset.
type Layout = (usize, Vec<(String, usize)>);

/// The layouts that C gives the declared structs: each field at the next multiple of its alignment.
#[derive(Default)]
struct Laid {
    layouts: BTreeMap<String, Layout>,
    alignments: BTreeMap<String, usize>,
}

impl Laid {
    /// The size and the alignment of a field.
    fn of(&self, kind: &Kind) -> (usize, usize) {
        match kind {
            Kind::Number(bytes) => (*bytes, *bytes),
            Kind::Array(count, bytes) => (count * bytes, *bytes),
            Kind::Struct(name) => (self.layouts[name].0, self.alignments[name]),
        }
    }

    /// Lays out a struct whose fields are known.
    fn lay(&mut self, declared: &Struct) {
        let (mut end, mut widest, mut fields) = (0usize, 1, Vec::new());
        for (name, kind) in &declared.fields {
            let (size, alignment) = self.of(kind);
            let at = end.next_multiple_of(alignment);
            fields.push((name.clone(), at));
            end = at + size;
            widest = widest.max(alignment);
        }
        let layout = (end.next_multiple_of(widest), fields);
        self.layouts.insert(declared.name.clone(), layout);
        self.alignments.insert(declared.name.clone(), widest);
    }
}

/// The layouts of all structs that the proved crates declare for C.
fn library() -> BTreeMap<String, Layout> {
    let mut laid = Laid::default();
    let declared = LIBRARIES.iter().flat_map(|library| structs(library));
    declared.for_each(|declared| laid.lay(&declared));
    laid.layouts
}

/// The layout of a struct of Rust, under its name in C.
macro_rules! rust {
    ($name:literal, $type:ty, $($field:ident)+) => {{
        let fields = vec![$((stringify!($field).to_string(), offset_of!($type, $field))),+];
        ($name.to_string(), (size_of::<$type>(), fields))
    }};
}

#[test]
fn rust_has_the_layouts_of_the_library() {
    let rust = BTreeMap::from([
        rust!("romfs_result", c::romfs::Answer, refusal place value),
        rust!("romfs_header", c::romfs::Header,
            refusal place file_type executable info size next name_length),
        rust!("romfs_part", c::romfs::Part, refusal place offset length),
        rust!("tfs_result", c::tfs::Answer, refusal place value blocks),
        rust!("tfs_slot", c::tfs::Slot, refusal place used inode size name_length name),
        rust!("tfs_entry", c::trace::Entry, kind size offset length refusal value),
        rust!("tfs_record", c::trace::Record,
            entry name_at name_length bytes_at bytes_length next),
        rust!("tfs_written", c::trace::Written, refusal length),
        rust!("tfs_replayed", c::trace::Replayed, outcome number refusal place),
        rust!("timing_result", c::timing::Answer, refusal place value),
        rust!("timing_booted", c::timing::Booted, refusal place values),
    ]);
    assert_eq!(rust, library());
}

/// A statement of C that prints the layout of a struct, as `lines` has it.
fn print_layout(name: &str, fields: &[(String, usize)]) -> String {
    let names = fields.iter().map(|(field, _)| format!(" {field} %zu"));
    let offsets = fields
        .iter()
        .map(|(field, _)| format!(", offsetof({name}, {field})"));
    let (names, offsets) = (names.collect::<String>(), offsets.collect::<String>());
    format!("printf(\"{name} %zu{names}\\n\", sizeof({name}){offsets});\n")
}

/// A program that prints the layouts of the headers' structs.
fn printing(layouts: &BTreeMap<String, Layout>) -> String {
    let prints = layouts
        .iter()
        .map(|(name, (_, fields))| print_layout(name, fields));
    let prints = prints.collect::<String>();
    format!("{HEADERS}#include <stdio.h>\nint main(void)\n{{\n{prints}return 0;\n}}\n")
}

/// The layouts, one on each line.
fn lines(layouts: &BTreeMap<String, Layout>) -> String {
    let mut text = String::new();
    for (name, (size, fields)) in layouts {
        let fields = fields.iter().map(|(field, at)| format!(" {field} {at}"));
        writeln!(text, "{name} {size}{}", fields.collect::<String>()).unwrap();
    }
    text
}

#[test]
fn the_headers_have_the_layouts_of_the_library() {
    let layouts = library();
    let folder = folder("layouts");
    let c = told("gcc", "-std=c99", &folder, &printing(&layouts));
    assert_eq!(c, lines(&layouts));
}

#[test]
fn the_headers_declare_the_functions_of_the_library() {
    let mut text = HEADERS.to_string();
    for function in LIBRARIES.iter().flat_map(|library| functions(library)) {
        let (name, parameters) = (&function.name, function.parameters.join(", "));
        let declared = format!("{}({parameters})", function.answer);
        let same = format!("__builtin_types_compatible_p(__typeof__({name}), {declared})");
        writeln!(text, "_Static_assert({same}, \"{name}\");").unwrap();
    }
    assert_eq!(text.matches("_Static_assert").count(), 24);
    let flags = format!("-std=c11 {STRICT}");
    let compiled = compile("gcc", &flags, &folder("functions"), &text);
    assert_eq!(compiled, Ok(()));
}
