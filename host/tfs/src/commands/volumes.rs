//! The commands on volumes.

use super::options::*;
use super::plain;
use super::table::{Command, Kind, Plain, Times};
use crate::arguments::Arguments;
use crate::failure::Outcome;
use crate::{dump, numbers, view, volume};
use std::path::Path;

static PART: Plain = Plain {
    name: "PART",
    kind: Kind::OneOf(&["header", "map", "slot", "inode"]),
    times: Times::Once,
    about: "header, map, slot N or inode N",
};

static NUMBER: Plain = Plain {
    name: "N",
    kind: Kind::Free,
    times: Times::OnceOrNot,
    about: "slot, 0 to 24, or block of an inode",
};

pub static COMMANDS: [Command; 6] = [
    Command {
        name: "make",
        plain: &[&plain::NEW_IMAGE],
        needed: &[&SIZE],
        options: &[&LABEL, &FORCE, &ESCAPED, &WAIT],
        summary: "Makes an empty volume in a new file.",
        text: "BYTES is 1536 or more; 64K and 2M are understood. Bytes past 2M are never used. A block
device is refused: make the volume in a plain file and copy it there.",
        run: make,
    },
    Command {
        name: "check",
        plain: &[&plain::IMAGE, &plain::MORE_IMAGES],
        needed: &[],
        options: &[&ALL, &JSON, &WAIT],
        summary: "Prints \"consistent\", or refuses with the first fault and its slot or block.",
        text: "Where tfs mend would be granted, the message says so. Of several images each is checked, with a
line that begins with its name; the exit status is the highest of all. --all adds to the verdict of
the library every fault that this tool finds in the bytes itself; the exit status is that of the
verdict. The same fault at successive blocks is one line.",
        run: |given| {
            let paths: Vec<&Path> = given.words().iter().map(Path::new).collect();
            view::check(&paths, given.flag(&ALL), given.form())
        },
    },
    Command {
        name: "list",
        plain: &[&plain::IMAGE],
        needed: &[],
        options: &[&JSON, &WAIT],
        summary: "Prints a line for each file: slot, inode number, size, name.",
        text: "In names the backslash and bytes that are not printable ASCII are written \\xNN.
A name ends at its zero; leftovers behind it are shown by tfs dump only.",
        run: |given| volume::list(given.path(0), given.form()),
    },
    Command {
        name: "free",
        plain: &[&plain::IMAGE],
        needed: &[],
        options: &[&RECORD, &JSON, &WAIT],
        summary: "Prints the free bytes: 512 for each free block.",
        text: "A file needs one block for its inode.",
        run: |given| volume::free(given.path(0), given.path_of(&RECORD), given.form()),
    },
    Command {
        name: "mend",
        plain: &[&plain::IMAGE],
        needed: &[],
        options: &[&IN_PLACE, &JSON, &WAIT],
        summary: "Clears the bits of the map that a cut create or remove has left, and prints how many.",
        text: "These bits are set for blocks, from 3 on, which no file has. What is printed is \"map bits
cleared: N\". A volume without such bits is not written. One with any other fault is refused as by
tfs check, with the first of these faults, and stays as it is.",
        run: |given| volume::mend(given.path(0), given.flag(&IN_PLACE), given.form()),
    },
    Command {
        name: "dump",
        plain: &[&plain::IMAGE, &PART, &NUMBER],
        needed: &[],
        options: &[&JSON, &WAIT],
        summary: "Prints bytes of the volume in hex, and what they mean.",
        text: "This is the tool's own reading of the bytes, not a request of the proved library: it checks
nothing, and works on damaged volumes too. A slot is free, used or neither. Leftovers are its bytes
behind the zero that ends its name, or behind the first name byte of a free slot; no other command
looks at them.",
        run: dump,
    },
];

fn make(given: &Arguments) -> Outcome {
    let size = given.read(&SIZE, numbers::size)?;
    let label = given.name_of(&LABEL)?.unwrap_or_default();
    volume::make(given.path(0), size, &label, given.flag(&FORCE))
}

fn dump(given: &Arguments) -> Outcome {
    let part = dump::Part::asked(given.word(1), given.word_if_given(2))?;
    dump::dump(given.path(0), part, given.form())
}
