//! Help in the terminal.

use super::status::{LEFT_BEHIND, STATUSES};
use super::table::{Command, Group};
use super::{all_options, commands, fits, GROUPS, VERSION};
use crate::failure::{Failure, Outcome};
use crate::report::Form;
use std::ffi::{OsStr, OsString};
use std::os::unix::ffi::OsStrExt;

/// What the tool is, in one line.
pub const TOOL: &str =
    "A bench tool for TFS volumes, the pump's timing file, traces of requests, and romfs images.";

/// The greatest length of a line that is filled.
const WIDTH: usize = 100;

/// The version of the tool.
pub fn version(form: Form) -> Vec<u8> {
    let version = env!("CARGO_PKG_VERSION");
    form.told(
        || format!("tfs {version}\n"),
        || vec![("version", version.into())],
    )
}

/// The help of the commands that the words of a command line name, or of the whole tool.
pub fn told(words: &[OsString]) -> String {
    let before = words.iter().take_while(|word| *word != "--");
    let is_plain = |word: &&OsString| !word.as_bytes().starts_with(b"-");
    let plain: Vec<OsString> = before.filter(is_plain).cloned().collect();
    // The command "help" before other words is not the one that they ask about.
    let asked = match plain.split_first() {
        Some((first, rest)) if first == "help" && !rest.is_empty() => rest,
        _ => &plain,
    };
    of_commands(asked).unwrap_or_else(overview)
}

/// The help of the commands that words name, which must be right.
pub fn asked(words: &[OsString]) -> Outcome {
    let shown = words.join(OsStr::new(" "));
    let help = match words {
        [] => Some(overview()),
        _ if commands().any(|command| fits(command, words) && words.len() <= command.length()) => {
            of_commands(words)
        }
        _ => None,
    };
    let unknown = || {
        Failure::Usage(format!(
            "help: {}: no such command; tfs help lists them",
            shown.display()
        ))
    };
    Ok(help.ok_or_else(unknown)?.into_bytes())
}

fn of_commands(words: &[OsString]) -> Option<String> {
    let named = commands().filter(|command| !words.is_empty() && fits(command, words));
    let texts: Vec<String> = named.map(of_command).collect();
    let last = statuses();
    (!texts.is_empty()).then(|| texts.concat() + &last)
}

/// The help of a command: usage, text, arguments, options, and what is to be known of these.
fn of_command(command: &Command) -> String {
    let plain = command
        .plain
        .iter()
        .map(|plain| (plain.name.to_string(), plain.about));
    let options = command
        .all_options()
        .map(|option| (option.forms(), option.about));
    let more: Vec<&str> = command.all_options().map(|option| option.more).collect();
    let parts = [
        format!("usage: {}", filled(command, 11)),
        [command.summary, command.text]
            .join("\n")
            .trim_end()
            .to_string(),
        columns(plain.collect()),
        columns(options.collect()),
        more.into_iter()
            .filter(|more| !more.is_empty())
            .collect::<Vec<_>>()
            .join("\n"),
    ];
    let there = parts.iter().filter(|part| !part.is_empty());
    there.map(|part| format!("{part}\n\n")).collect()
}

/// Lines of two columns.
fn columns(lines: Vec<(String, &str)>) -> String {
    let widest = lines.iter().map(|(left, _)| left.len()).max().unwrap_or(0);
    let line = |(left, right): &(String, &str)| format!("  {left:widest$}  {right}");
    lines.iter().map(line).collect::<Vec<_>>().join("\n")
}

/// A usage line, broken between its parts; what follows is indented.
fn filled(command: &Command, indent: usize) -> String {
    let mut lines = format!("tfs {}", command.name);
    let mut length = indent + lines.len();
    for part in command.usage_parts() {
        if length + 1 + part.len() > WIDTH {
            lines += &format!("\n{:indent$}", "");
            length = indent;
        }
        lines += &format!(" {part}");
        length += 1 + part.len();
    }
    lines
}

fn statuses() -> String {
    let list = STATUSES
        .iter()
        .map(|(number, when)| (number.to_string(), *when));
    format!(
        "Exit status\n{}\n\n{LEFT_BEHIND}\n",
        columns(list.collect())
    )
}

fn overview() -> String {
    let line = |command: &Command| format!("  {}\n      {}\n", filled(command, 6), command.summary);
    let group = |group: &Group| {
        let lines: String = group.commands.iter().map(line).collect();
        format!("{}\n{lines}\n", group.title)
    };
    let groups: String = GROUPS.iter().map(group).collect();
    let common = all_options().into_iter().filter(|option| option.common);
    let common = common.map(|option| (option.forms(), option.about));
    let [short, long] = VERSION;
    format!(
        "{TOOL}\n\n{groups}Options of many commands\n{}\n\n\
         tfs COMMAND --help tells more of a command, tfs {long} or {short} the version.\n\n{}",
        columns(common.collect()),
        statuses()
    )
}
