//! The options, each defined once for all commands that have it.

use super::table::{Kind, Opt};

pub static HELP: Opt = Opt {
    long: "--help",
    short: Some('h'),
    value: None,
    common: true,
    about: "tell what the command does, and do nothing",
    more: "",
};

pub static JSON: Opt = Opt {
    long: "--json",
    short: Some('j'),
    value: None,
    common: true,
    about: "print one JSON object on one line, after a failure too",
    more: "--json prints an object with \"tfs\":1, the number of its shape, and \"command\". After a failure it
has \"error\" with \"status\" and \"message\", and of a refusal \"refusal\" and \"place\"; the line on
standard error and the exit status are the same as ever.",
};

pub static ESCAPED: Opt = Opt {
    long: "--escaped",
    short: Some('x'),
    value: None,
    common: true,
    about: "names of the image's files are given as they are printed: \\xNN is a byte",
    more: "",
};

pub static WAIT: Opt = Opt {
    long: "--wait",
    short: Some('w'),
    value: Some(("SECONDS", Kind::Free)),
    common: true,
    about: "wait so long for files that other commands hold: 0 to 3600, else 10",
    more: "Commands on one image wait for each other, unless they only read it: each finds the image as the one
before has left it. One that has waited as long as --wait says gives up with exit status 6.",
};

pub static RECORD: Opt = Opt {
    long: "--record",
    short: Some('R'),
    value: Some(("TRACE", Kind::File)),
    common: false,
    about: "append the requests and their answers to a trace",
    more: "--record TRACE appends what was asked of the volume and answered, refused requests too, to a
trace, which is made if it is missing. The new trace is written whole beside the old one, then
what the command writes is put in place, then the trace. Where only this last step fails, the
message says that the image or file has been changed and the trace has not.",
};

pub static IN_PLACE: Opt = Opt {
    long: "--in-place",
    short: Some('i'),
    value: None,
    common: false,
    about: "change the file itself, block by block",
    more: "--in-place changes the file itself: whole blocks are stored one after another, each flushed before
the next. A cut of the power after any of them leaves a volume that is consistent, or that tfs mend
makes so; tfs check tells which. Without the option a new file is renamed over the old one.
A block device is always changed in place.",
};

pub static SIZE: Opt = Opt {
    long: "--size",
    short: Some('s'),
    value: Some(("BYTES", Kind::Free)),
    common: false,
    about: "size of the image: 65536, 0x10000, 64k and 64KiB are the same",
    more: "",
};

pub static LABEL: Opt = Opt {
    long: "--label",
    short: Some('l'),
    value: Some(("NAME", Kind::Free)),
    common: false,
    about: "name of the volume, of at most 15 bytes",
    more: "",
};

pub static FORCE: Opt = Opt {
    long: "--force",
    short: Some('f'),
    value: None,
    common: false,
    about: "replace a file that stands there",
    more: "",
};

pub static ALL: Opt = Opt {
    long: "--all",
    short: Some('A'),
    value: None,
    common: false,
    about: "list every broken rule and its place, as this tool reads the bytes",
    more: "",
};

pub static SVG: Opt = Opt {
    long: "--svg",
    short: None,
    value: Some(("FILE", Kind::File)),
    common: false,
    about: "write the map as a picture (SVG) to this file; - is standard output",
    more: "",
};

pub static COLOUR: Opt = Opt {
    long: "--colour",
    short: Some('C'),
    value: None,
    common: false,
    about: "colour the letters also where the output is no terminal",
    more: "",
};

pub static NAME: Opt = Opt {
    long: "--name",
    short: Some('n'),
    value: Some(("NAME", Kind::Free)),
    common: false,
    about: "name of the file in the volume, of at most 15 bytes",
    more: "",
};

pub static REPLACE: Opt = Opt {
    long: "--replace",
    short: Some('r'),
    value: None,
    common: false,
    about: "replace a file of this name in the volume",
    more: "",
};

pub static AT: Opt = Opt {
    long: "--at",
    short: Some('a'),
    value: Some(("OFFSET", Kind::Free)),
    common: false,
    about: "begin at this byte of the file in the volume, counted from 0",
    more: "",
};

pub static LENGTH: Opt = Opt {
    long: "--length",
    short: Some('c'),
    value: Some(("BYTES", Kind::Free)),
    common: false,
    about: "move exactly so many bytes",
    more: "",
};

pub static TO: Opt = Opt {
    long: "--to",
    short: Some('t'),
    value: Some(("FOLDER", Kind::File)),
    common: false,
    about: "write the files into this folder",
    more: "",
};

pub static BLOCKS: Opt = Opt {
    long: "--blocks",
    short: Some('b'),
    value: None,
    common: false,
    about: "print the number of content blocks: \"content blocks: N\"",
    more: "",
};

pub static OUT: Opt = Opt {
    long: "--out",
    short: Some('o'),
    value: Some(("IMAGE2", Kind::File)),
    common: false,
    about: "write the changed copy to this file",
    more: "",
};

pub static BOARD: Opt = Opt {
    long: "--board",
    short: None,
    value: Some(("N", Kind::Free)),
    common: false,
    about: "number of the board, decimal or hex after 0x",
    more: "",
};

pub static MAKER: Opt = Opt {
    long: "--maker",
    short: None,
    value: Some(("N", Kind::Free)),
    common: false,
    about: "number of the memory's maker, decimal or hex after 0x",
    more: "",
};
