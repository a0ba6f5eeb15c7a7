//! The command line itself.

mod bench;

use bench::Folder;

const PUT: &str =
    "put IMAGE HOSTFILE [HOSTFILE..] [--name NAME] [--replace] [--at OFFSET] [--length BYTES] \
     [--blocks] [--in-place] [--record TRACE]";

/// The commands, each with the first of its words.
const COMMANDS: [&str; 25] = [
    "make IMAGE",
    "check IMAGE",
    "list IMAGE",
    "free IMAGE",
    "put IMAGE",
    "get IMAGE",
    "remove IMAGE",
    "create IMAGE",
    "extract IMAGE",
    "build FOLDER",
    "info IMAGE",
    "map IMAGE",
    "mend IMAGE",
    "replay IMAGE",
    "trace show TRACE",
    "trace make LINES",
    "timing show IMAGE",
    "timing store IMAGE",
    "timing open-lid IMAGE",
    "timing boot IMAGE",
    "dump IMAGE",
    "rom check IMAGE",
    "rom list IMAGE",
    "rom extract IMAGE",
    "rom cat IMAGE",
];

#[test]
fn help_tells_of_every_command() {
    let folder = Folder::new("help");
    let overview = folder.tfs("--help").text();
    for usage in COMMANDS {
        assert!(overview.contains(&format!("\n  tfs {usage}")), "{usage}");
        let (command, _) = usage.rsplit_once(' ').unwrap();
        let help = folder.tfs(&format!("{command} --help")).text();
        assert!(help.starts_with(&format!("usage: tfs {usage}")), "{usage}");
        assert_eq!(help.matches("usage:").count(), 1, "{usage}");
        let records = help.contains("[--record TRACE]");
        assert_eq!(records, help.contains("--record TRACE appends"), "{usage}");
    }
    assert_eq!(overview.matches("[--record TRACE]").count(), 5);
    for (command, replaces) in [
        ("put", true),
        ("get", false),
        ("remove", false),
        ("free", false),
    ] {
        let help = folder.tfs(&format!("{command} --help")).text();
        assert_eq!(help.contains("--replace"), replaces, "{command}");
    }
    assert_eq!(folder.tfs("rom --help").text().matches("usage:").count(), 4);
    assert_eq!(
        folder.tfs("get v f --help").text(),
        folder.tfs("get -h").text()
    );
    assert_eq!(folder.tfs("-h").text(), overview);
}

#[test]
fn the_version_is_that_of_the_crate() {
    let folder = Folder::new("version");
    let version = format!("tfs {}\n", env!("CARGO_PKG_VERSION"));
    for line in ["--version", "-V", "version"] {
        assert_eq!(folder.tfs(line).text(), version, "{line}");
    }
    let json = format!(
        "{{\"tfs\":1,\"command\":\"version\",\"version\":\"{}\"}}\n",
        env!("CARGO_PKG_VERSION")
    );
    for line in ["--version --json", "-V -j", "version --json"] {
        assert_eq!(folder.tfs(line).text(), json, "{line}");
    }
}

#[test]
fn an_unknown_command_has_status_2() {
    let folder = Folder::new("unknown");
    for (line, message) in [
        ("", "no command; tfs --help lists them"),
        ("-", "no command; tfs --help lists them"),
        ("--", "no command; tfs --help lists them"),
        (
            "rom -",
            "rom: a word of the command is missing; tfs help rom lists them",
        ),
        (
            "rom --bogus",
            "unknown option --bogus; tfs --help lists the commands",
        ),
        (
            "rom --json list",
            "--json stands before the command; options come behind it",
        ),
        ("mount v", "mount: no such command; tfs --help lists them"),
        ("lsit v", "lsit: no such command; list?"),
        ("Check v", "Check: no such command; check?"),
        ("rem v", "rem: no such command; remove?"),
        (
            "rom",
            "rom: a word of the command is missing; tfs help rom lists them",
        ),
        (
            "rom mount v",
            "rom mount: no such command; tfs help rom lists them",
        ),
        ("rom lst v", "rom lst: no such command; rom list?"),
        (
            "timing",
            "timing: a word of the command is missing; tfs help timing lists them",
        ),
        (
            "timing close-lid v",
            "timing close-lid: no such command; tfs help timing lists them",
        ),
        (
            "timing openlid v",
            "timing openlid: no such command; timing open-lid?",
        ),
    ] {
        folder.refused(line, 2, message);
    }
}

#[test]
fn an_option_comes_behind_the_command() {
    let folder = Folder::new("before");
    for (line, message) in [
        (
            "--json list v",
            "--json stands before the command; options come behind it",
        ),
        (
            "-j list v",
            "-j stands before the command; options come behind it",
        ),
        ("--vresion", "unknown option --vresion; --version?"),
        ("--forse make v", "unknown option --forse; --force?"),
        (
            "--mount v",
            "unknown option --mount; tfs --help lists the commands",
        ),
    ] {
        folder.refused(line, 2, message);
    }
}

/// Options that a command does not know, and what is said of them.
const UNKNOWN: [(&str, &str); 9] = [
    (
        "make v --size 64K --forse",
        "make: unknown option --forse; --force?",
    ),
    (
        "free v --recrod t",
        "free: unknown option --recrod; --record?",
    ),
    ("put v f --rep", "put: unknown option --rep; --replace?"),
    (
        "check v --every",
        "check: unknown option --every; usage: tfs check IMAGE [IMAGE..] [--all]",
    ),
    (
        "check v -f",
        "check: unknown option -f; usage: tfs check IMAGE [IMAGE..] [--all]",
    ),
    (
        "check v -jf",
        "check: unknown option -f; usage: tfs check IMAGE [IMAGE..] [--all]",
    ),
    (
        "check v -é",
        "check: unknown option -é; usage: tfs check IMAGE [IMAGE..] [--all]",
    ),
    (
        "version --all",
        "version: unknown option --all; usage: tfs version",
    ),
    (
        "help --all",
        "help: unknown option --all; usage: tfs help [COMMAND..]",
    ),
];

#[test]
fn an_unknown_option_has_status_2() {
    let folder = Folder::new("unknown_option");
    for (line, message) in UNKNOWN {
        let ran = folder.tfs(line);
        let told = (ran.status, ran.err);
        assert_eq!(told, (2, format!("tfs: {message}\n")), "{line}");
        assert!(folder.names().is_empty(), "{line}");
    }
}

#[test]
fn short_options_are_the_long_ones() {
    let folder = Folder::new("short");
    folder.write("f", &[7; 513]);
    let (long, short) = ("content blocks: 2\n", "-rbn");
    folder.tfs("make -s 64k -l PUMP v").granted();
    folder.tfs("make -fs64k v -lPUMP").granted();
    folder.tfs("make --size=64k --label=PUMP w").granted();
    assert!(folder.read("v") == folder.read("w"));
    assert_eq!(folder.run(&["put", "v", "f", short, "NAME"]).text(), long);
    assert_eq!(folder.run(&["put", "v", "f", "-rbnNAME"]).text(), long);
    assert_eq!(folder.tfs("put -r -b -n NAME -Rt -- v f").text(), long);
    assert_eq!(
        folder.tfs("put w f --replace --blocks --name=NAME").text(),
        long
    );
    assert_eq!(folder.tfs("trace show t").text().lines().count(), 3);
    assert!(folder.read("v") == folder.read("w"));
    folder.tfs("remove -i v NAME").granted();
    folder.tfs("remove w NAME --in-place").granted();
    assert!(folder.read("v") == folder.read("w"));
    folder.refused(
        "put v f -n",
        2,
        &format!("put: --name needs a value; usage: tfs {PUT}"),
    );
}

#[test]
fn wrong_arguments_have_status_2() {
    let folder = Folder::new("usage");
    let cases = [
        (
            "check",
            "an argument is missing",
            "check IMAGE [IMAGE..] [--all]",
        ),
        ("list a b", "too many arguments", "list IMAGE"),
        ("mend", "an argument is missing", "mend IMAGE [--in-place]"),
        ("mend a b", "too many arguments", "mend IMAGE [--in-place]"),
        ("put v f --name", "--name needs a value", PUT),
        ("put v f --replace=1", "--replace has no value", PUT),
    ];
    for (line, why, usage) in cases {
        let command = line.split(' ').next().unwrap();
        folder.refused(line, 2, &format!("{command}: {why}; usage: tfs {usage}"));
    }
    folder.refused("put v -", 2, "put: -: give a --name");
    folder.refused("put v ..", 2, "put: ..: give a --name");
    folder.refused("make v", 2, "make: --size is needed");
}

#[test]
fn a_size_is_a_number() {
    let folder = Folder::new("sizes");
    let thousands = "may count in thousands or in 1,024; write";
    for (size, why) in [
        ("x", "no size in bytes".to_string()),
        ("-1", "no size in bytes".to_string()),
        ("1.5M", "no size in bytes".to_string()),
        ("64 K", "no size in bytes".to_string()),
        ("", "no size in bytes".to_string()),
        ("4294967296", "not below 4 GiB".to_string()),
        ("4096M", "not below 4 GiB".to_string()),
        ("64kB", format!("kB {thousands} k or KiB for 1,024")),
    ] {
        let ran = folder.run(&["make", "v", "--size", size]);
        let message = format!("tfs: make: --size {size}: {why}\n");
        assert_eq!((ran.status, ran.err), (2, message));
    }
    for (size, bytes) in [
        ("1536", 1536),
        ("2K", 2048),
        ("2k", 2048),
        ("0x800", 2048),
        ("64KiB", 65_536),
        ("65_536", 65_536),
        ("1M", 1 << 20),
        ("001536", 1536),
    ] {
        folder
            .tfs(&format!("make v --force --size {size}"))
            .granted();
        assert_eq!(folder.read("v").len(), bytes);
    }
}

#[test]
fn a_message_stays_on_one_line() {
    let folder = Folder::new("one_line");
    let ran = folder.run(&["check", "a\nb\x1b"]);
    assert_eq!(
        ran.err,
        "tfs: a?b?: No such file or directory (os error 2)\n"
    );
}
