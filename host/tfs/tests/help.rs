//! Help in the terminal and the manual page.

mod bench;

use bench::Folder;
use std::process::Command;

#[test]
fn help_is_found_anywhere_before_the_end_of_options() {
    let folder = Folder::new("help_anywhere");
    let help = folder.tfs("get --help").text();
    for line in [
        "help get",
        "get -h",
        "-h get",
        "--help get v f",
        "get v f -h",
        "get v f --forse --help",
        "get --blocks=1 v -h",
        "get v -bh",
        "get -h --",
    ] {
        assert_eq!(folder.tfs(line).text(), help, "{line}");
    }
    assert_eq!(folder.tfs("get -- v -h").status, 3);
}

/// So that no script takes what was not done for done.
#[test]
fn the_value_of_an_option_asks_for_no_help() {
    let folder = Folder::new("help_value");
    folder.tfs("make v --size 64K").granted();
    folder.write("h", b"1");
    for (words, name) in [
        ("-n -h", "-h"),
        ("--name --help", "--help"),
        ("-rn -V", "-V"),
    ] {
        folder.tfs(&format!("put v h {words}")).granted();
        assert_eq!(folder.run(&["get", "v", "--", name, "-"]).granted(), b"1");
    }
    let message = "-n stands before the command; options come behind it";
    folder.refused("-n -h put v h", 2, message);
}

#[test]
fn help_of_a_first_word_is_that_of_its_commands() {
    let folder = Folder::new("help_first_word");
    let help = folder.tfs("help rom").text();
    assert_eq!(folder.tfs("rom --help").text(), help);
    for command in ["check", "list", "extract", "cat"] {
        assert!(
            help.contains(&format!("usage: tfs rom {command} ")),
            "{command}"
        );
    }
    assert_eq!(help.matches("usage:").count(), 4);
    let list = folder.tfs("help rom list").text();
    assert!(list.starts_with("usage: tfs rom list IMAGE\n"));
    assert_eq!(list.matches("usage:").count(), 1);
}

#[test]
fn help_without_a_command_lists_them() {
    let folder = Folder::new("help_lists");
    let overview = folder.tfs("help").text();
    for line in ["--help", "-h", "help --help mount", "mount --help"] {
        assert_eq!(folder.tfs(line).text(), overview, "{line}");
    }
}

#[test]
fn help_of_an_unknown_command_is_refused() {
    let folder = Folder::new("help_unknown");
    for words in ["mount", "rom mount", "list v", "rom list v"] {
        let message = format!("help: {words}: no such command; tfs help lists them");
        folder.refused(&format!("help {words}"), 2, &message);
    }
}

#[test]
fn the_page_has_its_sections_in_order() {
    let folder = Folder::new("man_sections");
    let page = folder.tfs("man").text();
    let sections = page.lines().filter_map(|line| line.strip_prefix(".SH "));
    let expected = [
        "NAME",
        "SYNOPSIS",
        "DESCRIPTION",
        "COMMANDS",
        "OPTIONS",
        "\"EXIT STATUS\"",
        "EXAMPLES",
    ];
    assert_eq!(sections.collect::<Vec<_>>(), expected);
}

/// Where groff is missing nothing is compared.
#[test]
fn groff_finds_nothing_wrong_with_the_page() {
    let folder = Folder::new("man_groff");
    folder.write("tfs.1", &folder.tfs("man").granted());
    let groff = Command::new("groff")
        .args(["-man", "-ww", "-Tascii", "-P-cbuo", "-rLL=100n"])
        .arg(folder.path("tfs.1"))
        .output();
    let Ok(groff) = groff else {
        return;
    };
    assert_eq!(String::from_utf8(groff.stderr).unwrap(), "");
    let shown = String::from_utf8(groff.stdout).unwrap();
    for text in [
        "tfs put IMAGE HOSTFILE [HOSTFILE..] [--name NAME]",
        "    write \"TIMING\" 0 \"tCL=11\" -> 6    name, offset, bytes; the count",
        "are written \\xNN.",
        "printf 'rate=25\\n' | tfs put pump.img - --name rates",
    ] {
        assert!(shown.contains(text), "{text}");
    }
}

#[test]
fn the_examples_of_the_page_run() {
    let folder = Folder::new("man_examples");
    let page = folder.tfs("man").text();
    let (_, examples) = page.split_once("\n.SH EXAMPLES\n").unwrap();
    let unescaped = examples
        .replace("\\-", "-")
        .replace("\\(aq", "'")
        .replace("\\e", "\\");
    let lines: Vec<&str> = unescaped
        .lines()
        .filter(|line| line.contains("tfs "))
        .collect();
    assert!(lines.len() >= 5);
    for line in lines {
        folder.shell(line).granted();
    }
    assert!(folder.tfs("list pump.img").granted().is_empty());
}
