//! The table's types: groups of commands, their plain arguments and their options.

use crate::arguments::Arguments;
use crate::failure::Outcome;
use std::ffi::OsStr;

/// What a person types there, as completions offer it.
#[derive(Clone, Copy, Debug)]
pub enum Kind {
    /// A file or folder of the host.
    File,
    /// Something that nothing can be offered for.
    Free,
    /// One of these words.
    OneOf(&'static [&'static str]),
    /// The words of a command.
    Command,
}

/// How often a plain argument stands.
#[derive(Clone, Copy, Debug, PartialEq, Eq, PartialOrd, Ord)]
pub enum Times {
    Once,
    OnceOrNot,
    /// Any number of times, none too; only the last argument.
    Any,
}

/// A plain argument.
pub struct Plain {
    pub name: &'static str,
    pub kind: Kind,
    pub times: Times,
    pub about: &'static str,
}

impl Plain {
    /// The argument in a usage line.
    fn usage(&self) -> String {
        match self.times {
            Times::Once => self.name.to_string(),
            Times::OnceOrNot => format!("[{}]", self.name),
            Times::Any => format!("[{}..]", self.name),
        }
    }
}

/// An option.
pub struct Opt {
    /// With its dashes.
    pub long: &'static str,
    pub short: Option<char>,
    /// The name and kind of its value, if it has one.
    pub value: Option<(&'static str, Kind)>,
    /// Whether so many commands have it that their usage lines leave it out.
    pub common: bool,
    /// Its meaning on one line.
    pub about: &'static str,
    /// What else is to be known of it, or nothing.
    pub more: &'static str,
}

impl Opt {
    /// The long form with the value's name.
    pub fn usage(&self) -> String {
        match self.value {
            Some((name, _)) => format!("{} {name}", self.long),
            None => self.long.to_string(),
        }
    }

    /// The words that it is given by: the short one, if it has one, and the long one.
    pub fn words(&self) -> Vec<String> {
        let short = self.short.map(|short| format!("-{short}"));
        short.into_iter().chain([self.long.to_string()]).collect()
    }

    /// Whether a word gives it.
    pub fn is(&self, word: &OsStr) -> bool {
        self.words().iter().any(|own| word == own.as_str())
    }

    /// Both forms with the value's name, as lists of options have them.
    pub fn forms(&self) -> String {
        match self.short {
            Some(short) => format!("-{short}, {}", self.usage()),
            None => format!("    {}", self.usage()),
        }
    }
}

/// A command.
pub struct Command {
    /// Its words.
    pub name: &'static str,
    pub plain: &'static [&'static Plain],
    /// The options that must be given.
    pub needed: &'static [&'static Opt],
    /// The options that may be given.
    pub options: &'static [&'static Opt],
    /// What it does, on one line.
    pub summary: &'static str,
    /// What else is to be known of it. Lines that begin with a space stay as they are.
    pub text: &'static str,
    pub run: fn(&Arguments) -> Outcome,
}

impl Command {
    /// The number of words of its name.
    pub fn length(&self) -> usize {
        self.name.split(' ').count()
    }

    /// All its options.
    pub fn all_options(&self) -> impl Iterator<Item = &'static Opt> {
        let own = self.needed.iter().chain(self.options);
        own.copied().chain([&super::options::HELP])
    }

    /// The parts of its usage line behind the name: what must be given stands before what may be.
    pub fn usage_parts(&self) -> Vec<String> {
        let mut plain = self.plain.iter().map(|plain| plain.usage());
        let mut parts: Vec<String> = plain.next().into_iter().collect();
        parts.extend(self.needed.iter().map(|option| option.usage()));
        parts.extend(plain);
        let rare = self.options.iter().filter(|option| !option.common);
        parts.extend(rare.map(|option| format!("[{}]", option.usage())));
        parts
    }

    /// Its usage line: "tfs put IMAGE HOSTFILE ...".
    pub fn usage(&self) -> String {
        let words = [format!("tfs {}", self.name)];
        words
            .into_iter()
            .chain(self.usage_parts())
            .collect::<Vec<_>>()
            .join(" ")
    }

    /// The least and the greatest number of plain words.
    pub fn words(&self) -> (usize, usize) {
        let once = self.plain.iter().filter(|plain| plain.times == Times::Once);
        let any = self.plain.iter().any(|plain| plain.times == Times::Any);
        let most = if any { usize::MAX } else { self.plain.len() };
        (once.count(), most)
    }
}

/// Commands that belong together.
pub struct Group {
    pub title: &'static str,
    pub commands: &'static [Command],
}
