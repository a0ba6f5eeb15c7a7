//! The commands that move content.

use super::options::*;
use super::plain;
use super::table::{Command, Kind, Plain, Times};
use crate::arguments::Arguments;
use crate::contents;
use crate::failure::{Failure, Outcome};
use crate::numbers;
use std::path::Path;

static FILE_SIZE: Plain = Plain {
    name: "SIZE",
    kind: Kind::Free,
    times: Times::Once,
    about: "size of the file: 0 to 65024 bytes, as 512, 0x200 or 64k",
};

static SOURCE: Plain = Plain {
    name: "HOSTFILE",
    kind: Kind::File,
    times: Times::Once,
    about: "host file, or - for standard input",
};

static SOURCES: Plain = Plain {
    name: "HOSTFILE",
    kind: Kind::File,
    times: Times::Any,
    about: "more host files",
};

static TARGET: Plain = Plain {
    name: "HOSTFILE|NAME",
    kind: Kind::File,
    times: Times::Any,
    about: "host file that is written, or - for standard output; with --to more names",
};

static NAMES: Plain = Plain {
    name: "NAME",
    kind: Kind::Free,
    times: Times::Any,
    about: "more names of files in the volume",
};

static NEW_FOLDER: Plain = Plain {
    name: "FOLDER",
    kind: Kind::File,
    times: Times::Once,
    about: "folder that is made, which must not exist yet",
};

static FOLDER: Plain = Plain {
    name: "FOLDER",
    kind: Kind::File,
    times: Times::Once,
    about: "folder with plain files",
};

pub static COMMANDS: [Command; 6] = [
    Command {
        name: "create",
        plain: &[&plain::IMAGE, &plain::NAME, &FILE_SIZE],
        needed: &[],
        options: &[&IN_PLACE, &RECORD, &ESCAPED, &JSON, &WAIT],
        summary: "Makes a file of SIZE zeros in the volume.",
        text: "The size is fixed from then on; tfs put --at writes into the file. --json tells its inode number.",
        run: create,
    },
    Command {
        name: "put",
        plain: &[&plain::IMAGE, &SOURCE, &SOURCES],
        needed: &[],
        options: &[
            &NAME, &REPLACE, &AT, &LENGTH, &BLOCKS, &IN_PLACE, &RECORD, &ESCAPED, &JSON, &WAIT,
        ],
        summary: "Puts host files into the volume, under their own names, or one under NAME.",
        text: "A name that stands is refused, unless --replace is given. --blocks counts the content blocks that
the bytes were written to. A put is a create and then a write, and with --replace a remove before
them: in place, a cut may come between them, too.
Several files are put all or none: where one is refused, the message names it. In place, a cut
leaves the files before it put, and those behind it as they were; --record adds the requests when
all are stored. Where something was changed in memory and a later request is refused, nothing is
recorded, since the image stays as it was.
--at makes no file: it writes into the one that stands, from OFFSET on. Where that has no room for
all, nothing is written (exit status 1); an offset greater than its size is refused (15). --length
takes only the first bytes of HOSTFILE, which must have so many. Both are for one HOSTFILE, and
so is --name.",
        run: put,
    },
    Command {
        name: "get",
        plain: &[&plain::IMAGE, &plain::NAME, &TARGET],
        needed: &[],
        options: &[
            &TO, &AT, &LENGTH, &FORCE, &BLOCKS, &RECORD, &ESCAPED, &JSON, &WAIT,
        ],
        summary: "Writes a file of the volume to HOSTFILE, or to a host file NAME in the working folder.",
        text: "What leads to a stream is written to and never replaced: a character device, a pipe, /dev/stdout,
/dev/fd/N. There --json is refused, as standard output may be the content. --blocks counts the
content blocks that the bytes were read from; where the content goes to standard output, this line
goes to standard error.
--at begins at OFFSET, --length gives exactly so many bytes: where the file has fewer from there on,
nothing is written (exit status 1). Without --length all bytes to the end are given.
Several files are got with --to alone (--to . is the working folder): without it the word behind
NAME is a HOSTFILE. Each goes to a host file of its name in FOLDER. Where one is refused, has no
name for a host file or cannot be written, there is none: all are written beside their places before
the first is put there. --at and --length are for one NAME without --to.",
        run: get,
    },
    Command {
        name: "remove",
        plain: &[&plain::IMAGE, &plain::NAME, &NAMES],
        needed: &[],
        options: &[&IN_PLACE, &RECORD, &ESCAPED, &WAIT],
        summary: "Removes files from the volume.",
        text: "Several are removed all or none: where one is refused, the message names it, and nothing is recorded
if another was removed in memory before. In place, a cut leaves those behind it as they were;
--record adds the requests when all are stored.",
        run: remove,
    },
    Command {
        name: "extract",
        plain: &[&plain::IMAGE, &NEW_FOLDER],
        needed: &[],
        options: &[&ESCAPED, &JSON, &WAIT],
        summary: "Makes FOLDER with all files of the volume.",
        text: "Tells on standard error of each file that is skipped, as the host can have no such name: with a
slash, \".\" or \"..\". Then the exit status is 7, and FOLDER has the others. With --escaped the host
files are named as tfs list prints the names, a slash as \\x2f, and nothing is skipped.",
        run: |given| contents::extract(given.path(0), given.path(1), given.flag(&ESCAPED), given.form()),
    },
    Command {
        name: "build",
        plain: &[&FOLDER, &plain::NEW_IMAGE],
        needed: &[],
        options: &[&SIZE, &LABEL, &FORCE, &ESCAPED, &JSON, &WAIT],
        summary: "Makes a volume with the plain files of FOLDER, in the order of their names.",
        text: "Without --size it has the smallest size that holds them. With --escaped the names of the host files
are read as tfs extract --escaped writes them. Nothing is written where FOLDER has something else,
such as a folder or a link (exit status 3), a name over 15 bytes (refused 8), a file over 65024
bytes (9), two files of one name (10), over 25 entries (11), or more than BYTES have room for (12).",
        run: build,
    },
];

fn create(given: &Arguments) -> Outcome {
    let create = contents::Create {
        name: &given.name(1)?,
        size: given.read_word(2, numbers::size)?,
        in_place: given.flag(&IN_PLACE),
    };
    contents::create(given.path(0), &create, given.path_of(&RECORD), given.form())
}

fn put(given: &Arguments) -> Outcome {
    let hosts = &given.words()[1..];
    if hosts.len() > 1 {
        given.without(&[&NAME, &AT, &LENGTH], "is for one HOSTFILE")?;
    }
    if given.flag(&AT) {
        given.without(
            &[&REPLACE],
            "makes a new file, --at writes into one that stands",
        )?;
    }
    let name = given.name_of(&NAME)?;
    let put = contents::Put {
        hosts,
        name: name.as_deref(),
        at: given.read_if_given(&AT, numbers::size)?,
        length: given.read_if_given(&LENGTH, numbers::size)?,
        replace: given.flag(&REPLACE),
        blocks: given.flag(&BLOCKS),
        in_place: given.flag(&IN_PLACE),
    };
    contents::put(given.path(0), &put, given.path_of(&RECORD), given.form())
}

fn get(given: &Arguments) -> Outcome {
    if let Some(folder) = given.path_of(&TO) {
        return get_all(given, folder);
    }
    if given.words().len() > 3 {
        let why = "get: several names need --to FOLDER";
        return Err(Failure::Usage(why.to_string()));
    }
    let get = contents::Get {
        name: &given.name(1)?,
        host: given.path_if_given(2),
        at: given.read_if_given(&AT, numbers::size)?.unwrap_or(0),
        length: given.read_if_given(&LENGTH, numbers::size)?,
        force: given.flag(&FORCE),
        blocks: given.flag(&BLOCKS),
    };
    contents::get(given.path(0), &get, given.path_of(&RECORD), given.form())
}

fn get_all(given: &Arguments, folder: &Path) -> Outcome {
    given.without(&[&AT, &LENGTH], "is for one NAME without --to")?;
    let get = contents::GetAll {
        names: &given.names_from(1)?,
        folder,
        force: given.flag(&FORCE),
        blocks: given.flag(&BLOCKS),
    };
    contents::get_all(given.path(0), &get, given.path_of(&RECORD), given.form())
}

fn remove(given: &Arguments) -> Outcome {
    let (record, in_place) = (given.path_of(&RECORD), given.flag(&IN_PLACE));
    contents::remove(given.path(0), &given.names_from(1)?, record, in_place)
}

fn build(given: &Arguments) -> Outcome {
    let build = contents::Build {
        size: given.read_if_given(&SIZE, numbers::size)?,
        label: &given.name_of(&LABEL)?.unwrap_or_default(),
        escaped: given.flag(&ESCAPED),
        force: given.flag(&FORCE),
    };
    contents::build(given.path(0), given.path(1), &build, given.form())
}
