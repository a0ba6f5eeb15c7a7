//! Completions for bash, as a script.

use super::table::{Command, Kind, Opt, Plain, Times};
use super::{commands, options::HELP, VERSION};
use crate::failure::{Failure, Outcome};
use std::ffi::OsStr;

/// The script; what the table gives stands in it between @.
const SCRIPT: &str = r#"# Completions of tfs for bash, made by: tfs completions bash

# Offers what may stand in a place: a file, none, or one of some words.
_tfs_offer() {
    case $1 in
    none) ;;
    file)
        compopt -o filenames 2>/dev/null
        mapfile -t COMPREPLY < <(compgen -f -- "$2")
        ;;
    *) mapfile -t COMPREPLY < <(compgen -W "$1" -- "$2") ;;
    esac
}

# Sets the second words of the commands with a first one.
_tfs_second() {
    case $1 in
@SECOND@    esac
}

_tfs() {
    local IFS=$' \t\n'
    local word=${COMP_WORDS[COMP_CWORD]} start=2 second=''
    local options='' values='' plain=() more=none
    local given expects='' ended='' count=0 at
    COMPREPLY=()
    if ((COMP_CWORD == 1)); then
        _tfs_offer '@FIRST@' "$word"
        return
    fi
    _tfs_second "${COMP_WORDS[1]}"
    if [[ -n $second ]]; then
        start=3
        if ((COMP_CWORD == 2)); then
            _tfs_offer "$second" "$word"
            return
        fi
    fi
    case "${COMP_WORDS[*]:1:start-1}" in
@COMMANDS@    *) return ;;
    esac
    # Bash makes three words of --name=value.
    [[ $word == = ]] && word=''
    for ((at = start; at < COMP_CWORD; at++)); do
        given=${COMP_WORDS[at]}
        if [[ $given == = ]]; then
            continue
        elif [[ -n $expects ]]; then
            expects=''
        elif [[ -n $ended || $given != -?* ]]; then
            ((++count))
            [[ $more != command ]] || _tfs_second "$given"
        elif [[ $given == -- ]]; then
            ended=1
        elif [[ $values == *" $given:"* ]]; then
            expects=${values#*" $given:"}
            expects=${expects%%;*}
        fi
    done
    if [[ -n $expects ]]; then
        _tfs_offer "$expects" "$word"
    elif [[ -z $ended && $word == -* ]]; then
        _tfs_offer "$options" "$word"
    elif [[ $more == command ]]; then
        case $count in
        0) _tfs_offer '@WORDS@' "$word" ;;
        1) _tfs_offer "${second:-none}" "$word" ;;
        esac
    else
        _tfs_offer "${plain[count]-$more}" "$word"
    fi
}

complete -F _tfs tfs
"#;

/// The script for a shell.
pub fn asked(shell: &OsStr) -> Outcome {
    match shell.to_str() {
        Some("bash") => Ok(script().into_bytes()),
        _ => {
            let why = format!("completions: {}: only bash is known", shell.display());
            Err(Failure::Usage(why))
        }
    }
}

fn script() -> String {
    let options = HELP.words().into_iter().chain(VERSION.map(str::to_string));
    let words = first_words().join(" ");
    let first: Vec<String> = [words.clone()].into_iter().chain(options).collect();
    let second: String = first_words().into_iter().filter_map(second_words).collect();
    SCRIPT
        .replace("@FIRST@", &first.join(" "))
        .replace("@WORDS@", &words)
        .replace("@SECOND@", &second)
        .replace("@COMMANDS@", &commands().map(case).collect::<String>())
}

/// The first words of the commands, each once.
fn first_words() -> Vec<&'static str> {
    let first = commands().filter_map(|command| command.name.split(' ').next());
    let mut words: Vec<&str> = first.collect();
    words.sort();
    words.dedup();
    words
}

/// The case of a first word that a second one follows.
fn second_words(first: &str) -> Option<String> {
    let second = |command: &'static Command| command.name.strip_prefix(first)?.strip_prefix(' ');
    let words: Vec<&str> = commands().filter_map(second).collect();
    (!words.is_empty()).then(|| format!("    {first}) second='{}' ;;\n", words.join(" ")))
}

/// The case of a command: its options, the kinds of their values and of its plain arguments.
fn case(command: &Command) -> String {
    let options: Vec<String> = command.all_options().flat_map(Opt::words).collect();
    let values: String = command.all_options().map(value).collect();
    let (any, once): (Vec<&Plain>, Vec<&Plain>) = command
        .plain
        .iter()
        .partition(|plain| plain.times == Times::Any);
    let plain: Vec<String> = once
        .iter()
        .map(|plain| format!("'{}'", place(plain.kind)))
        .collect();
    let more = any
        .first()
        .map_or("none".to_string(), |plain| place(plain.kind));
    let lines = [
        format!("    '{}')", command.name),
        format!("        options='{}'", options.join(" ")),
        format!("        values='{values}'"),
        format!("        plain=({})", plain.join(" ")),
        format!("        more='{more}'"),
        "        ;;\n".to_string(),
    ];
    lines.join("\n")
}

/// The words of an option with a value, each with what is offered behind it.
fn value(option: &Opt) -> String {
    let of = |(_, kind)| {
        let words = option.words().into_iter();
        words
            .map(|word| format!(" {word}:{};", place(kind)))
            .collect()
    };
    option.value.map_or(String::new(), of)
}

/// What the script offers for a kind.
fn place(kind: Kind) -> String {
    match kind {
        Kind::File => "file".to_string(),
        Kind::Free => "none".to_string(),
        Kind::OneOf(words) => words.join(" "),
        Kind::Command => "command".to_string(),
    }
}
