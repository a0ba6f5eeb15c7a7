//! The commands on romfs images.

use super::options::*;
use super::plain;
use super::table::{Command, Kind, Plain, Times};
use crate::rom;

static FOLDER: Plain = Plain {
    name: "FOLDER",
    kind: Kind::File,
    times: Times::Once,
    about: "folder that is made, which must not exist yet",
};

static PATH: Plain = Plain {
    name: "PATH",
    kind: Kind::Free,
    times: Times::Once,
    about: "path of a file in the image, such as bin/run",
};

pub static COMMANDS: [Command; 4] = [
    Command {
        name: "rom check",
        plain: &[&plain::ROM],
        needed: &[],
        options: &[&JSON, &WAIT],
        summary: "Prints \"accepted\", or refuses with the first fault and its header's offset.",
        text: "",
        run: |given| rom::check(given.path(0), given.form()),
    },
    Command {
        name: "rom list",
        plain: &[&plain::ROM],
        needed: &[],
        options: &[&JSON, &WAIT],
        summary: "Prints the tree, a line for each entry: header's offset, x if executable, type, size, path.",
        text: "In paths the names are written as by tfs list, and a slash within a name as \\x2f. After a path comes
what a link leads to, or the numbers of a device.",
        run: |given| rom::list(given.path(0), given.form()),
    },
    Command {
        name: "rom extract",
        plain: &[&plain::ROM, &FOLDER],
        needed: &[],
        options: &[&JSON, &WAIT],
        summary: "Makes FOLDER with the files, directories and links of the image.",
        text: "Tells on standard error of each entry that is skipped: a device, socket or fifo, a name that the
host cannot have, a name that stands twice. Then the exit status is 7, and FOLDER has the others.
Nothing is written outside of FOLDER.",
        run: |given| rom::extract(given.path(0), given.path(1), given.form()),
    },
    Command {
        name: "rom cat",
        plain: &[&plain::ROM, &PATH],
        needed: &[],
        options: &[&ESCAPED, &WAIT],
        summary: "Writes the content of a file to standard output; of a symbolic link, what it leads to.",
        text: "Hard links are followed, symbolic links are not.",
        run: |given| rom::cat(given.path(0), &given.names(1)?),
    },
];
