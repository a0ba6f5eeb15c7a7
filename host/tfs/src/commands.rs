//! The commands: one table, and from it what is run, told and completed.

mod completions;
mod contents;
mod help;
mod man;
pub mod options;
mod plain;
mod roms;
mod status;
pub mod table;
#[cfg(test)]
mod tests;
mod timings;
mod tool;
mod traces;
mod views;
mod volumes;

use crate::arguments::{self, Arguments};
use crate::failure::{Failure, Outcome};
use crate::files;
use crate::nearest::nearest;
use crate::numbers;
use options::{HELP, WAIT};
use std::ffi::{OsStr, OsString};
use std::os::unix::ffi::OsStrExt;
use table::{Command, Group, Opt};

/// All commands. A new one is entered in the module of its group.
static GROUPS: [Group; 7] = [
    Group {
        title: "Volumes",
        commands: &volumes::COMMANDS,
    },
    Group {
        title: "Files of volumes",
        commands: &contents::COMMANDS,
    },
    Group {
        title: "Views of a volume",
        commands: &views::COMMANDS,
    },
    Group {
        title: "The timing file",
        commands: &timings::COMMANDS,
    },
    Group {
        title: "Traces of requests",
        commands: &traces::COMMANDS,
    },
    Group {
        title: "Romfs images",
        commands: &roms::COMMANDS,
    },
    Group {
        title: "The tool",
        commands: &tool::COMMANDS,
    },
];

/// Options that stand for a command, before which there is none.
const VERSION: [&str; 2] = ["-V", "--version"];

/// The commands of all groups.
fn commands() -> impl Iterator<Item = &'static Command> {
    GROUPS.iter().flat_map(|group| group.commands)
}

/// The options of all commands, each once.
fn all_options() -> Vec<&'static Opt> {
    let mut options: Vec<&Opt> = commands().flat_map(Command::all_options).collect();
    options.sort_by_key(|option| option.long);
    options.dedup_by_key(|option| option.long);
    options
}

/// Runs the command that words ask for. What fails is told on standard output too, where JSON is
/// asked for.
pub fn run(mut words: Vec<OsString>) -> Outcome {
    let stands_for = |word: &&mut OsString| VERSION.iter().any(|version| *word == version);
    if let Some(word) = words.first_mut().filter(stands_for) {
        *word = "version".into();
    }
    let command = match asked(&words) {
        Err(_) if helps(&words) => return Ok(help::told(&words).into_bytes()),
        command => command?,
    };
    let given = Arguments::parse(command, &words[command.length()..]);
    if given.flag(&HELP) {
        return Ok(help::told(&words).into_bytes());
    }
    let done = given.fit().and_then(|()| {
        if given.flag(&WAIT) {
            files::wait_at_most(given.read(&WAIT, numbers::seconds)?);
        }
        (command.run)(&given)
    });
    done.inspect_err(|failure| {
        // Where standard output fails as well, the exit status still tells the failure.
        let _ = files::print(&given.form().failure(failure));
    })
}

/// Whether words that begin with no command ask for help, before "--" and not as an option's value.
fn helps(words: &[OsString]) -> bool {
    let options = all_options();
    let has_value = |word: &OsStr| {
        let option = options.iter().find(|option| option.is(word));
        option.is_some_and(|option| option.value.is_some())
    };
    let mut before = words.iter().take_while(|word| *word != "--");
    while let Some(word) = before.next() {
        if HELP.is(word) {
            return true;
        }
        if has_value(word) {
            before.next();
        }
    }
    false
}

/// The command whose words these begin with.
fn asked(words: &[OsString]) -> Result<&'static Command, Failure> {
    let known = |command: &&Command| words.len() >= command.length() && fits(command, words);
    let unknown = || Failure::Usage(unknown(words));
    commands().find(known).ok_or_else(unknown)
}

/// Whether words begin with a command's name, as far as there are words.
fn fits(command: &Command, words: &[OsString]) -> bool {
    let mut pairs = command.name.split(' ').zip(words);
    pairs.all(|(name, word)| word == name)
}

/// Why words ask for no command.
fn unknown(words: &[OsString]) -> String {
    let is_none = |word: &OsString| word == "-" || word == "--";
    let Some(first) = words.first().filter(|word| !is_none(word)) else {
        return "no command; tfs --help lists them".to_string();
    };
    if first.as_bytes().starts_with(b"-") {
        return before_the_command(first);
    }
    let names: Vec<&str> = commands().map(|command| command.name).collect();
    let begins = commands().any(|command| fits(command, &words[..1]));
    match (begins, words.get(1).filter(|word| !is_none(word))) {
        (true, None) => {
            let first = first.display();
            format!("{first}: a word of the command is missing; tfs help {first} lists them")
        }
        (true, Some(second)) if second.as_bytes().starts_with(b"-") => before_the_command(second),
        (true, Some(second)) => {
            let both = [first.as_os_str(), second].join(OsStr::new(" "));
            let list = format!("tfs help {} lists them", first.display());
            no_such(&both, &names, &list)
        }
        (false, _) => no_such(first, &names, "tfs --help lists them"),
    }
}

/// That there is no such command, and the one that may be meant, or what lists them.
fn no_such(wrong: &OsStr, names: &[&str], list: &str) -> String {
    let near = nearest(wrong, names).map(|name| format!("{name}?"));
    let hint = near.unwrap_or(list.to_string());
    format!("{}: no such command; {hint}", wrong.display())
}

/// Why an option without a command is wrong.
fn before_the_command(word: &OsStr) -> String {
    let (given, _) = arguments::split(word);
    let (shown, options) = (given.display(), all_options());
    if options.iter().any(|option| option.is(given)) {
        return format!("{shown} stands before the command; options come behind it");
    }
    let names = options.iter().map(|option| option.long).chain(VERSION);
    match nearest(given, &names.collect::<Vec<_>>()) {
        Some(name) => format!("unknown option {shown}; {name}?"),
        None => format!("unknown option {shown}; tfs --help lists the commands"),
    }
}
