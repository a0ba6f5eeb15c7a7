//! The examples in the README run as they are printed there.

mod bench;

use bench::rom::sample;
use bench::Folder;

const README: &str = include_str!("../README.md");

/// The commands of the examples, each with the lines printed after it.
fn examples() -> Vec<(String, String)> {
    let mut commands: Vec<(String, String)> = Vec::new();
    let mut inside = false;
    // Empty lines may be printed, too.
    let mut empty = String::new();
    for line in README.lines() {
        match line.strip_prefix("    ") {
            Some(text) if text.starts_with("$ ") => {
                commands.push((text[2..].to_string(), String::new()));
                inside = true;
                empty.clear();
            }
            Some(text) if inside => {
                let printed = &mut commands.last_mut().unwrap().1;
                *printed += &format!("{}{text}\n", std::mem::take(&mut empty));
            }
            _ if line.is_empty() => empty.push('\n'),
            _ => {
                inside = false;
                empty.clear();
            }
        }
    }
    commands
}

#[test]
fn examples_are_true() {
    let folder = Folder::new("readme");
    folder.write("boot.romfs", &sample());
    let examples = examples();
    assert!(examples.len() > 10);
    for (command, printed) in examples {
        let ran = folder.shell(&format!("exec 2>&1; {command}"));
        assert_eq!(String::from_utf8(ran.out).unwrap(), printed, "{command}");
    }
}
