//! The words of a command line, sorted by the table of commands.

use crate::commands::options::{ESCAPED, JSON};
use crate::commands::table::{Command, Opt};
use crate::escapes;
use crate::failure::Failure;
use crate::nearest::nearest;
use crate::report::Form;
use std::ffi::{OsStr, OsString};
use std::os::unix::ffi::OsStrExt;
use std::path::Path;

/// The words after a command: plain ones in order, and options.
pub struct Arguments {
    command: &'static Command,
    plain: Vec<OsString>,
    options: Vec<(&'static Opt, OsString)>,
    /// What is wrong with them first.
    wrong: Option<String>,
}

impl Arguments {
    /// Sorts words, those behind a wrong one too. "--" ends the options; "-" alone and "-1" are plain.
    pub fn parse(command: &'static Command, words: &[OsString]) -> Self {
        let mut given = Self {
            command,
            plain: Vec::new(),
            options: Vec::new(),
            wrong: None,
        };
        let mut words = words.iter();
        while let Some(word) = words.next() {
            let sorted = match word.as_bytes() {
                b"--" => {
                    given.plain.extend(words.by_ref().cloned());
                    Ok(())
                }
                [b'-', b'-', ..] => given.long(word, &mut words),
                [b'-', first, ..] if !first.is_ascii_digit() => given.short(word, &mut words),
                _ => {
                    given.plain.push(word.clone());
                    Ok(())
                }
            };
            given.wrong = given.wrong.or(sorted.err());
        }
        given
    }

    /// An option in its long form, with its value in the next word or after "=".
    fn long<'a>(
        &mut self,
        word: &OsStr,
        rest: &mut impl Iterator<Item = &'a OsString>,
    ) -> Result<(), String> {
        let (name, value) = split(word);
        let known = self
            .command
            .all_options()
            .find(|option| name == option.long);
        let option = known.ok_or_else(|| self.unknown(name))?;
        match (option.value, value) {
            (None, Some(_)) => return Err(self.misused(&format!("{} has no value", option.long))),
            (None, None) => self.options.push((option, OsString::new())),
            (Some(_), value) => self.valued(option, value.or_else(|| rest.next().cloned()))?,
        }
        Ok(())
    }

    /// Options in their short form: any number of flags, and one with a value, which is the rest of
    /// the word or the next word.
    fn short<'a>(
        &mut self,
        word: &OsStr,
        rest: &mut impl Iterator<Item = &'a OsString>,
    ) -> Result<(), String> {
        let letters = &word.as_bytes()[1..];
        for (index, &letter) in letters.iter().enumerate() {
            let known = |option: &&Opt| option.short == Some(char::from(letter));
            let Some(option) = self.command.all_options().find(known) else {
                let shown = String::from_utf8_lossy(&letters[index..]);
                let first: String = shown.chars().take(1).collect();
                return Err(self.unknown(OsStr::new(&format!("-{first}"))));
            };
            if option.value.is_some() {
                let value = OsStr::from_bytes(&letters[index + 1..]).to_os_string();
                let value = Some(value).filter(|value| !value.is_empty());
                return self.valued(option, value.or_else(|| rest.next().cloned()));
            }
            self.options.push((option, OsString::new()));
        }
        Ok(())
    }

    fn valued(&mut self, option: &'static Opt, value: Option<OsString>) -> Result<(), String> {
        let missing = || self.misused(&format!("{} needs a value", option.long));
        let value = value.ok_or_else(missing)?;
        self.options.push((option, value));
        Ok(())
    }

    /// Why an option is wrong that the command does not know.
    fn unknown(&self, name: &OsStr) -> String {
        let options: Vec<&str> = self
            .command
            .all_options()
            .map(|option| option.long)
            .collect();
        let (command, shown) = (self.command.name, name.display());
        match nearest(name, &options) {
            Some(near) => format!("{command}: unknown option {shown}; {near}?"),
            None => self.misused(&format!("unknown option {shown}")),
        }
    }

    fn misused(&self, why: &str) -> String {
        let command = self.command;
        format!("{}: {why}; usage: {}", command.name, command.usage())
    }

    /// Fails where the words are not those that the command needs.
    pub fn fit(&self) -> Result<(), Failure> {
        let (least, most) = self.command.words();
        let missing = |option: &&&Opt| !self.flag(option);
        let missing = self.command.needed.iter().find(missing);
        let wrong = match (self.plain.len(), missing) {
            _ if self.wrong.is_some() => self.wrong.clone(),
            (count, _) if count < least => Some(self.misused("an argument is missing")),
            (count, _) if count > most => Some(self.misused("too many arguments")),
            (_, missing) => {
                missing.map(|option| self.failed(&format!("{} is needed", option.long)))
            }
        };
        wrong.map_or(Ok(()), |wrong| Err(Failure::Usage(wrong)))
    }

    fn failed(&self, why: &str) -> String {
        format!("{}: {why}", self.command.name)
    }

    /// How the command tells what it has found.
    pub fn form(&self) -> Form {
        Form::new(self.command.name, self.flag(&JSON))
    }

    /// The plain words.
    pub fn words(&self) -> &[OsString] {
        &self.plain
    }

    /// A plain word that the command has.
    pub fn word(&self, index: usize) -> &OsStr {
        &self.plain[index]
    }

    /// A plain word, if there are so many.
    pub fn word_if_given(&self, index: usize) -> Option<&OsStr> {
        self.plain.get(index).map(OsString::as_os_str)
    }

    /// A plain word as a path of the host.
    pub fn path(&self, index: usize) -> &Path {
        Path::new(self.word(index))
    }

    /// A plain word as a path of the host, if there are so many.
    pub fn path_if_given(&self, index: usize) -> Option<&Path> {
        self.word_if_given(index).map(Path::new)
    }

    /// A plain word as a name within an image.
    pub fn name(&self, index: usize) -> Result<Vec<u8>, Failure> {
        self.bytes(self.word(index).as_bytes())
    }

    /// The plain words from one on as names within an image.
    pub fn names_from(&self, index: usize) -> Result<Vec<Vec<u8>>, Failure> {
        (index..self.plain.len()).map(|at| self.name(at)).collect()
    }

    /// A plain word as a path within an image: its names. A slash that is escaped ends none.
    pub fn names(&self, index: usize) -> Result<Vec<Vec<u8>>, Failure> {
        let names = self.word(index).as_bytes().split(|&byte| byte == b'/');
        let names = names.filter(|name| !name.is_empty());
        names.map(|name| self.bytes(name)).collect()
    }

    /// The value of an option as a name within an image, if it is given.
    pub fn name_of(&self, option: &Opt) -> Result<Option<Vec<u8>>, Failure> {
        let value = self.value(option).map(OsStr::as_bytes);
        value.map(|value| self.bytes(value)).transpose()
    }

    /// The bytes that a word means within an image.
    fn bytes(&self, word: &[u8]) -> Result<Vec<u8>, Failure> {
        if !self.flag(&ESCAPED) {
            return Ok(word.to_vec());
        }
        let shown = String::from_utf8_lossy(word);
        let failed = |why: String| Failure::Usage(self.failed(&format!("{shown}: {why}")));
        escapes::bytes(word).map_err(failed)
    }

    /// The value of an option that the command needs, read by a reader of numbers.
    pub fn read(
        &self,
        option: &Opt,
        reader: fn(&OsStr) -> Result<u32, String>,
    ) -> Result<u32, Failure> {
        let word = self.value(option).unwrap_or_default();
        let failed = |why: String| Failure::Usage(self.failed(&format!("{} {why}", option.long)));
        reader(word).map_err(failed)
    }

    /// The value of an option, if it is given, read by a reader of numbers.
    pub fn read_if_given(
        &self,
        option: &Opt,
        reader: fn(&OsStr) -> Result<u32, String>,
    ) -> Result<Option<u32>, Failure> {
        let given = self.flag(option);
        given.then(|| self.read(option, reader)).transpose()
    }

    /// A plain word that the command has, read by a reader of numbers.
    pub fn read_word(
        &self,
        index: usize,
        reader: fn(&OsStr) -> Result<u32, String>,
    ) -> Result<u32, Failure> {
        let name = self.command.plain[index].name;
        let failed = |why: String| Failure::Usage(self.failed(&format!("{name} {why}")));
        reader(self.word(index)).map_err(failed)
    }

    /// Fails where one of these options is given, and tells why it must not be.
    pub fn without(&self, options: &[&Opt], why: &str) -> Result<(), Failure> {
        let given = options.iter().find(|option| self.flag(option));
        given.map_or(Ok(()), |option| {
            let why = self.failed(&format!("{} {why}", option.long));
            Err(Failure::Usage(why))
        })
    }

    /// The value of an option, if it is given; the last one counts.
    fn value(&self, option: &Opt) -> Option<&OsStr> {
        let same = |(given, _): &&(&Opt, OsString)| given.long == option.long;
        let given = self.options.iter().rfind(same);
        given.map(|(_, value)| value.as_os_str())
    }

    /// The value of an option as a path of the host, if it is given.
    pub fn path_of(&self, option: &Opt) -> Option<&Path> {
        self.value(option).map(Path::new)
    }

    /// Whether an option is given.
    pub fn flag(&self, option: &Opt) -> bool {
        self.value(option).is_some()
    }
}

/// An option and the value that stands behind "=" in the same word.
pub fn split(word: &OsStr) -> (&OsStr, Option<OsString>) {
    let bytes = word.as_bytes();
    match bytes.iter().position(|&byte| byte == b'=') {
        Some(at) => {
            let value = OsStr::from_bytes(&bytes[at + 1..]).to_os_string();
            (OsStr::from_bytes(&bytes[..at]), Some(value))
        }
        None => (word, None),
    }
}
