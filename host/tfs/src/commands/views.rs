//! The commands that show a volume.

use super::options::*;
use super::plain;
use super::table::Command;
use crate::arguments::Arguments;
use crate::failure::Outcome;
use crate::view;

pub static COMMANDS: [Command; 2] = [
    Command {
        name: "info",
        plain: &[&plain::IMAGE],
        needed: &[],
        options: &[&JSON, &WAIT],
        summary: "Prints the volume's name, its blocks, bytes and slots, used and free, and its files.",
        text: "But for the verdict of the library, which comes first, this is the tool's own reading of the bytes.
Of a broken volume it shows what can be read, and the exit status is 1. A line of a file has its
slot, its inode number, its size, the number of its blocks with the inode, and its name.",
        run: |given| view::info(given.path(0), given.form()),
    },
    Command {
        name: "map",
        plain: &[&plain::IMAGE],
        needed: &[],
        options: &[&SVG, &FORCE, &COLOUR, &JSON, &WAIT],
        summary: "Draws the blocks of the volume, a letter for each file, and marks the faults.",
        text: "This is the tool's own reading of the bytes, not a request of the proved library: it works on broken
volumes too, and the exit status is 0 for them (tfs check gives the verdict). Rows have 8, 16, 32 or
64 blocks, as COLUMNS in the environment allows, else as 80 columns do; three or more free rows are
one line. A file has a capital letter for its inode and a small one for its content. Faults at no
block have a line each at the end. On a terminal the letters are coloured, unless NO_COLOR is set.",
        run: map,
    },
];

fn map(given: &Arguments) -> Outcome {
    let drawing = view::Drawing {
        svg: given.path_of(&SVG),
        force: given.flag(&FORCE),
        colour: given.flag(&COLOUR),
    };
    view::map(given.path(0), &drawing, given.form())
}
