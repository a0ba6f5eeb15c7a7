//! The commands on the tool itself.

use super::options::JSON;
use super::table::{Command, Kind, Plain, Times};
use super::{completions, help, man};

static COMMAND: Plain = Plain {
    name: "COMMAND",
    kind: Kind::Command,
    times: Times::Any,
    about: "words of a command, or the first of them",
};

static SHELL: Plain = Plain {
    name: "SHELL",
    kind: Kind::OneOf(&["bash"]),
    times: Times::Once,
    about: "bash",
};

pub static COMMANDS: [Command; 4] = [
    Command {
        name: "help",
        plain: &[&COMMAND],
        needed: &[],
        options: &[],
        summary: "Lists the commands, or tells more of one.",
        text: "tfs COMMAND --help does the same.",
        run: |given| help::asked(given.words()),
    },
    Command {
        name: "version",
        plain: &[],
        needed: &[],
        options: &[&JSON],
        summary: "Prints the version of the tool.",
        text: "tfs -V and tfs --version do the same.",
        run: |given| Ok(help::version(given.form())),
    },
    Command {
        name: "man",
        plain: &[],
        needed: &[],
        options: &[],
        summary: "Prints the manual page, for man(1).",
        text: "tfs man >tfs.1; man ./tfs.1 shows it.",
        run: |_| Ok(man::page().into_bytes()),
    },
    Command {
        name: "completions",
        plain: &[&SHELL],
        needed: &[],
        options: &[],
        summary: "Prints the completions of commands, options and files for a shell.",
        text: "source <(tfs completions bash) makes them known to this bash.",
        run: |given| completions::asked(given.word(0)),
    },
];
