//! What holds for every command and option of the table.

use super::table::Times;
use super::*;

fn told(line: &str) -> String {
    let words = line.split(' ').map(OsString::from).collect();
    String::from_utf8(run(words).unwrap()).unwrap()
}

#[test]
fn the_list_has_every_command() {
    let list = told("help");
    for command in commands() {
        let entry = format!("\n  tfs {}", command.name);
        assert!(list.contains(&entry), "{}", command.name);
        let summary = format!("\n      {}\n", command.summary);
        assert!(list.contains(&summary), "{}", command.name);
    }
}

#[test]
fn help_has_every_argument_and_option() {
    for command in commands() {
        let help = told(&format!("help {}", command.name));
        let plain = command
            .plain
            .iter()
            .map(|plain| (plain.name.to_string(), plain.about));
        let options = command
            .all_options()
            .map(|option| (option.forms(), option.about));
        let mut lines = plain.chain(options);
        let missing = lines.find(|(left, about)| {
            let has = |line: &str| {
                line.trim_end().ends_with(about) && line.starts_with(&format!("  {left} "))
            };
            !help.lines().any(has)
        });
        assert_eq!(missing, None, "{}", command.name);
        assert!(
            command
                .all_options()
                .all(|option| help.contains(option.more)),
            "{}",
            command.name
        );
    }
}

#[test]
fn the_page_has_every_command() {
    let page = told("man");
    for command in commands() {
        let name = command.name.replace('-', "\\-");
        let entry = format!("\n.TP\n\\fBtfs {name}\\fR ");
        assert_eq!(page.matches(&entry).count(), 1, "{}", command.name);
    }
}

#[test]
fn the_page_has_every_option() {
    let page = told("man");
    for option in all_options() {
        let forms = option.forms().trim().replace('-', "\\-");
        let entry = format!("\n.TP\n.B {forms}\n");
        assert_eq!(page.matches(&entry).count(), 1, "{}", option.long);
    }
}

#[test]
fn the_page_has_every_status() {
    let page = told("man");
    for (number, when) in status::STATUSES {
        let entry = format!("\n.TP\n.B {number}\n{when}\n");
        assert_eq!(page.matches(&entry).count(), 1, "{number}");
    }
}

#[test]
fn completions_have_every_command_and_option() {
    let script = told("completions bash");
    for command in commands() {
        let (_, rest) = script
            .split_once(&format!("\n    '{}')\n", command.name))
            .unwrap();
        let (arm, _) = rest.split_once(";;\n").unwrap();
        let (_, options) = arm.split_once("options='").unwrap();
        let (options, _) = options.split_once('\'').unwrap();
        let expected = command.all_options().map(|option| option.long);
        let longs = options.split(' ').filter(|word| word.starts_with("--"));
        assert!(longs.eq(expected), "{}", command.name);
    }
}

#[test]
fn an_option_means_the_same_everywhere() {
    let mut seen: Vec<&Opt> = Vec::new();
    for option in commands().flat_map(Command::all_options) {
        let alike = |other: &&&Opt| {
            other.long == option.long || (option.short.is_some() && other.short == option.short)
        };
        match seen.iter().find(alike) {
            Some(other) => assert!(std::ptr::eq(*other, option), "{}", option.long),
            None => seen.push(option),
        }
    }
    assert_eq!(seen.len(), all_options().len());
}

/// What must be given stands before what may be, and only the last argument stands often.
#[test]
fn arguments_are_told_apart_by_their_order() {
    for command in commands() {
        let times: Vec<Times> = command.plain.iter().map(|plain| plain.times).collect();
        assert!(times.is_sorted(), "{}", command.name);
        let often = times.iter().filter(|times| **times == Times::Any);
        assert!(often.count() <= 1, "{}", command.name);
    }
}

/// Else the words of the longer one would be arguments of the other.
#[test]
fn no_command_begins_with_the_words_of_another() {
    for command in commands() {
        let words: Vec<OsString> = command.name.split(' ').map(OsString::from).collect();
        let fitting = commands().filter(|other| fits(other, &words));
        assert_eq!(fitting.count(), 1, "{}", command.name);
    }
}

#[test]
fn lines_fit_a_terminal_of_100_columns() {
    for words in commands().map(|command| command.name).chain([""]) {
        let help = told(format!("help {words}").trim_end());
        let long = help.lines().find(|line| line.chars().count() > 100);
        assert_eq!(long, None, "{words}");
    }
}
