//! The manual page, in the macros of man(7).

use super::help::TOOL;
use super::status::{LEFT_BEHIND, STATUSES};
use super::table::{Command, Group, Opt, Plain};
use super::{all_options, commands, GROUPS};

const DESCRIPTION: &str = "The requests are those of the proved library. The tool itself reads and writes host files, and what
tfs dump, info, map, check --all, rom list and rom extract show. A failure is one line on standard error.";

/// Numbers and names as all commands read them.
const WORDS: &str = "An option has its value in the next word, or a long one after =; short ones without a value may be
bundled, and a value may follow in the same word. -- ends the options. Numbers are decimal, or hex
after 0x, and _ may stand between digits. Sizes may have k or KiB, m or MiB, g or GiB behind them,
in large or small letters: each counts 1,024 of the one before.";

/// Lines of the shell, each with what it does.
const EXAMPLES: [(&str, &str); 5] = [
    (
        "Make a volume of 64 KiB:",
        "tfs make pump.img --size 64k --label PUMP",
    ),
    (
        "Put what a program prints:",
        "printf 'rate=25\\n' | tfs put pump.img - --name rates",
    ),
    ("Print it again:", "tfs get pump.img rates -"),
    (
        "Ask whether the volume is sound, as a program does:",
        "tfs check pump.img --json",
    ),
    (
        "Remove the file, block by block:",
        "tfs remove pump.img rates --in-place",
    ),
];

/// The whole page.
pub fn page() -> String {
    let version = env!("CARGO_PKG_VERSION");
    let groups: String = GROUPS.iter().map(group).collect();
    let options: String = all_options().into_iter().map(option).collect();
    [
        format!(
            ".TH TFS 1 \"\" \"tfs {version}\"\n.nh\n.ad l\n.SH NAME\ntfs \\- {}\n",
            name()
        ),
        ".SH SYNOPSIS\n.B tfs\n.I COMMAND\n.RI [ ARGUMENT ..]\n.RI [ OPTION ..]\n".to_string(),
        format!(
            ".SH DESCRIPTION\n{}",
            lines(&format!("{TOOL}\n{DESCRIPTION}"))
        ),
        format!(".SH COMMANDS\n{groups}"),
        format!(".SH OPTIONS\n{}{options}", lines(WORDS)),
        format!(
            ".SH \"EXIT STATUS\"\n{}.PP\n{}",
            statuses(),
            lines(LEFT_BEHIND)
        ),
        format!(
            ".SH EXAMPLES\n{}",
            EXAMPLES.iter().map(example).collect::<String>()
        ),
    ]
    .concat()
}

/// What the tool is, as a list of pages has it.
fn name() -> String {
    let rest = TOOL.strip_prefix("A ").unwrap_or(TOOL);
    escaped(rest.trim_end_matches('.'))
}

fn group(group: &Group) -> String {
    let commands: String = group.commands.iter().map(command).collect();
    format!(".SS \"{}\"\n{commands}", escaped(group.title))
}

/// A command: its usage, what it does, its arguments, and the names of its options.
fn command(command: &Command) -> String {
    let plain = |plain: &&Plain| {
        let (name, about) = (escaped(plain.name), escaped(plain.about));
        format!(".br\n.IR {name} :\n{about}.\n")
    };
    let options: Vec<&str> = command.all_options().map(|option| option.long).collect();
    let usage = command.usage_parts().join(" ");
    [
        format!(
            ".TP\n\\fBtfs {}\\fR {}\n",
            escaped(command.name),
            escaped(&usage)
        ),
        lines(&format!("{}\n{}", command.summary, command.text)),
        command.plain.iter().map(plain).collect(),
        format!(".br\nOptions: {}.\n", escaped(&options.join(", "))),
    ]
    .concat()
}

/// An option: its forms, what it means, and the commands that have it.
fn option(option: &Opt) -> String {
    let has = |command: &&Command| command.all_options().any(|own| own.long == option.long);
    let names: Vec<&str> = commands().filter(has).map(|command| command.name).collect();
    let whose = match names.len() == commands().count() {
        true => "every command".to_string(),
        false => names.join(", "),
    };
    let about = format!("{} ({whose})", option.about);
    let more = match option.more {
        "" => String::new(),
        more => format!(".br\n{}", lines(more)),
    };
    format!(
        ".TP\n.B {}\n{}{more}",
        escaped(option.forms().trim()),
        lines(&about)
    )
}

fn statuses() -> String {
    let item = |(number, when): &(u8, &str)| format!(".TP\n.B {number}\n{}", lines(when));
    STATUSES.iter().map(item).collect()
}

fn example((what, line): &(&str, &str)) -> String {
    format!(
        ".PP\n{}.PP\n.in +4n\n.nf\n{}.fi\n.in\n",
        lines(what),
        lines(line)
    )
}

/// Lines of text; those that begin with a space are not filled.
fn lines(text: &str) -> String {
    let text: Vec<&str> = text.lines().filter(|line| !line.is_empty()).collect();
    let alike = |one: &&str, other: &&str| one.starts_with(' ') == other.starts_with(' ');
    let run = |run: &[&str]| {
        let lines: String = run.iter().map(|line| escaped(line) + "\n").collect();
        match run[0].starts_with(' ') {
            true => format!(".nf\n{lines}.fi\n"),
            false => lines,
        }
    };
    text.chunk_by(alike).map(run).collect()
}

/// A text as roff has it: no character of it is an instruction, and none becomes another.
fn escaped(text: &str) -> String {
    let mut shown = String::new();
    for character in text.chars() {
        match character {
            '\\' => shown += "\\e",
            '-' => shown += "\\-",
            '\'' => shown += "\\(aq",
            '"' => shown += "\\(dq",
            '`' => shown += "\\(ga",
            '^' => shown += "\\(ha",
            '~' => shown += "\\(ti",
            _ => shown.push(character),
        }
    }
    match shown.starts_with('.') {
        true => format!("\\&{shown}"),
        false => shown,
    }
}

#[cfg(test)]
mod tests {
    use super::*;

    #[test]
    fn text_is_no_instruction() {
        assert_eq!(escaped(".TH -x"), "\\&.TH \\-x");
        assert_eq!(
            escaped("'s \\n \"q\" `^~"),
            "\\(aqs \\en \\(dqq\\(dq \\(ga\\(ha\\(ti"
        );
    }

    #[test]
    fn indented_lines_stay_as_they_are() {
        assert_eq!(
            lines("one\ntwo\n  a\n  b\nthree"),
            "one\ntwo\n.nf\n  a\n  b\n.fi\nthree\n"
        );
        assert_eq!(lines(""), "");
    }
}
