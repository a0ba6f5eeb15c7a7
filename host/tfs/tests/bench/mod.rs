//! What the tests share: a folder of their own, and the tool run in it.

#![allow(dead_code)]

pub mod json;
pub mod rom;

use std::fs;
use std::io::Write;
use std::path::{Path, PathBuf};
use std::process::{Child, Command, Output, Stdio};

/// A folder that goes when the test ends.
pub struct Folder(PathBuf);

impl Folder {
    /// Makes an empty folder; the name must be of one test alone.
    pub fn new(name: &str) -> Self {
        let path = Path::new(env!("CARGO_TARGET_TMPDIR")).join(name);
        let _ = fs::remove_dir_all(&path);
        fs::create_dir_all(&path).unwrap();
        Self(path)
    }

    pub fn path(&self, name: &str) -> PathBuf {
        self.0.join(name)
    }

    pub fn write(&self, name: &str, bytes: &[u8]) {
        fs::write(self.path(name), bytes).unwrap();
    }

    pub fn read(&self, name: &str) -> Vec<u8> {
        fs::read(self.path(name)).unwrap()
    }

    /// The names in the folder, hidden ones too, in order.
    pub fn names(&self) -> Vec<String> {
        let entries = fs::read_dir(&self.0).unwrap();
        let name = |entry: fs::DirEntry| entry.file_name().into_string().unwrap();
        let mut names: Vec<String> = entries.map(|entry| name(entry.unwrap())).collect();
        names.sort();
        names
    }

    /// Runs the tool with words that have no spaces.
    pub fn tfs(&self, line: &str) -> Ran {
        self.run(&line.split_whitespace().collect::<Vec<_>>())
    }

    /// Runs the tool with these words.
    pub fn run(&self, words: &[&str]) -> Ran {
        self.run_with(words, b"")
    }

    /// Starts the tool with words that have no spaces.
    pub fn start(&self, line: &str) -> Child {
        self.tool(&line.split_whitespace().collect::<Vec<_>>())
            .spawn()
            .unwrap()
    }

    /// Runs the tool with each of some lines at once.
    pub fn at_once(&self, lines: impl Iterator<Item = String>) -> Vec<Ran> {
        let started: Vec<Child> = lines.map(|line| self.start(&line)).collect();
        let ended = started.into_iter().map(Child::wait_with_output);
        ended.map(|output| Ran::new(output.unwrap())).collect()
    }

    /// The tool with these words and pipes to it.
    pub fn tool(&self, words: &[&str]) -> Command {
        let mut tool = self.command(env!("CARGO_BIN_EXE_tfs"));
        tool.args(words)
            .stdin(Stdio::piped())
            .stdout(Stdio::piped())
            .stderr(Stdio::piped());
        tool
    }

    /// Runs the tool with these words and bytes on standard input.
    pub fn run_with(&self, words: &[&str], input: &[u8]) -> Ran {
        let mut child = self.tool(words).spawn().unwrap();
        // The tool may end without reading its input.
        let _ = child.stdin.take().unwrap().write_all(input);
        Ran::new(child.wait_with_output().unwrap())
    }

    /// Runs a line of the shell, which finds the tool as `tfs`.
    pub fn shell(&self, line: &str) -> Ran {
        let tool = Path::new(env!("CARGO_BIN_EXE_tfs")).parent().unwrap();
        let path = format!("{}:{}", tool.display(), std::env::var("PATH").unwrap());
        let mut shell = self.command("sh");
        shell.env("PATH", path).args(["-c", line]);
        Ran::new(shell.output().unwrap())
    }

    /// What a command of the shell shows on a terminal, where there is a program that gives it one.
    pub fn on_terminal(&self, command: &str) -> Option<String> {
        let found = self.shell("command -v script").status == 0;
        let line = format!("script -qec '{command}' /dev/null </dev/null");
        found.then(|| self.shell(&line).text())
    }

    fn command(&self, program: &str) -> Command {
        let mut command = Command::new(program);
        command.current_dir(&self.0);
        command
    }

    /// Runs the tool, which must be refused with this and change nothing in the folder.
    pub fn refused(&self, line: &str, status: i32, message: &str) {
        let before = self.contents();
        let ran = self.tfs(line);
        assert_eq!(ran.err, format!("tfs: {message}\n"), "{line}");
        assert_eq!(ran.status, status, "{line}");
        assert!(ran.out.is_empty(), "{line}");
        assert!(self.contents() == before, "{line}: the folder has changed");
    }

    /// The names, each with the content if it is a plain file; a pipe would be waited for.
    fn contents(&self) -> Vec<(String, Option<Vec<u8>>)> {
        let content = |name: &str| {
            let path = self.path(name);
            path.is_file().then(|| fs::read(path).ok()).flatten()
        };
        let names = self.names().into_iter();
        names.map(|name| (name.clone(), content(&name))).collect()
    }
}

impl Drop for Folder {
    fn drop(&mut self) {
        let _ = fs::remove_dir_all(&self.0);
    }
}

/// How a run ended.
#[derive(Debug)]
pub struct Ran {
    pub status: i32,
    pub out: Vec<u8>,
    pub err: String,
}

impl Ran {
    pub fn new(output: Output) -> Self {
        Self {
            status: output.status.code().unwrap_or(-1),
            out: output.stdout,
            err: String::from_utf8(output.stderr).unwrap(),
        }
    }

    /// The output of a run that must have ended well.
    pub fn granted(self) -> Vec<u8> {
        assert_eq!((self.status, self.err.as_str()), (0, ""));
        self.out
    }

    /// The output as text of a run that must have ended well.
    pub fn text(self) -> String {
        String::from_utf8(self.granted()).unwrap()
    }
}

/// Bytes that differ from each other.
pub fn some(count: usize) -> Vec<u8> {
    (0..count)
        .map(|index| (index * 7 + index / 256) as u8)
        .collect()
}
