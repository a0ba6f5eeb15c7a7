//! The commands on traces.

use super::options::*;
use super::plain;
use super::table::{Command, Kind, Plain, Times};
use crate::arguments::Arguments;
use crate::failure::Outcome;
use crate::trace;

static LINES: Plain = Plain {
    name: "LINES",
    kind: Kind::File,
    times: Times::Once,
    about: "file with lines as tfs trace show prints them, or - for standard input",
};

pub static COMMANDS: [Command; 3] = [
    Command {
        name: "replay",
        plain: &[&plain::IMAGE, &plain::TRACE],
        needed: &[],
        options: &[&OUT, &FORCE, &JSON, &WAIT],
        summary: "Makes the requests of a trace on a copy of the volume, until an answer differs.",
        text: "Prints how many records were replayed, or tells the record, from 1, whose answer differs (exit
status 4) or that is malformed (5). IMAGE is never changed. --out writes the copy also where replay
has stopped: with all that was made, a differing request too. A file that stands there is replaced
only with --force, a block device never. A volume that is refused (1) gives no IMAGE2.",
        run: replay,
    },
    Command {
        name: "trace show",
        plain: &[&plain::TRACE],
        needed: &[],
        options: &[&JSON],
        summary: "Prints a trace, a line for each record: the request, an arrow, and the answer.",
        text: "    create \"TIMING\" 1000 -> granted   name, size
    write \"TIMING\" 0 \"tCL=11\" -> 6    name, offset, bytes; the count
    read \"TIMING\" 4 64 -> \"11\\x00\"    name, offset, length of the buffer; the bytes
    remove \"RATES\" -> refused 13      name; any request may be refused
    free -> 62464                     the free bytes
In quotes, the quote, the backslash and bytes that are not printable ASCII are written \\xNN.
Before a malformed record (exit status 5) the lines of the records before it are printed, but not
with --json.",
        run: |given| trace::show(given.path(0), given.form()),
    },
    Command {
        name: "trace make",
        plain: &[&LINES, &plain::TRACE],
        needed: &[],
        options: &[&FORCE, &WAIT],
        summary: "Makes a trace of lines as tfs trace show prints them: the same bytes again.",
        text: "Empty lines and those that begin with # are left out. A bad line (exit status 5) is told with its
number, and nothing is written. A file that stands at TRACE is replaced only with --force.",
        run: |given| trace::make(given.path(0), given.path(1), given.flag(&FORCE)),
    },
];

fn replay(given: &Arguments) -> Outcome {
    let force = given.flag(&FORCE);
    let kept = given.path_of(&OUT).map(|path| trace::Kept { path, force });
    trace::replay(given.path(0), given.path(1), kept.as_ref(), given.form())
}
