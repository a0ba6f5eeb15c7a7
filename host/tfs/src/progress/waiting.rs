//! How long a command has waited, shown on a terminal.

use super::PATIENCE;
use std::io::{self, IsTerminal, Write};
use std::path::Path;
use std::time::Duration;

/// A wait for a file. Its line goes when this goes.
pub struct Waiting {
    file: String,
    terminal: bool,
    /// The line that is shown.
    drawn: Option<String>,
}

impl Waiting {
    /// A wait that may begin now.
    pub fn new(path: &Path) -> Self {
        Self {
            file: path.display().to_string().replace(char::is_control, "?"),
            terminal: io::stderr().is_terminal(),
            drawn: None,
        }
    }

    /// Shows for how long it has lasted, if that is to be seen and was not shown before.
    pub fn show(&mut self, elapsed: Duration) {
        let line = line(&self.file, elapsed, self.terminal);
        if let Some(line) = line.filter(|line| self.drawn.as_ref() != Some(line)) {
            // What cannot be shown is no failure of the wait.
            let _ = write!(io::stderr(), "\r{line}\x1b[K");
            self.drawn = Some(line);
        }
    }
}

impl Drop for Waiting {
    fn drop(&mut self) {
        if self.drawn.is_some() {
            let _ = write!(io::stderr(), "\r\x1b[K");
        }
    }
}

/// What is shown of a wait after some time, if anything is.
fn line(file: &str, elapsed: Duration, terminal: bool) -> Option<String> {
    let shown = terminal && elapsed >= PATIENCE;
    shown.then(|| format!("waiting for {file}, {} s", elapsed.as_secs()))
}

#[cfg(test)]
mod tests {
    use super::*;

    #[test]
    fn a_wait_is_shown_after_a_second_and_only_on_a_terminal() {
        let shown = |millis, terminal| line("a.img", Duration::from_millis(millis), terminal);
        assert_eq!(shown(999, true), None);
        assert_eq!(shown(3999, false), None);
        assert_eq!(shown(1000, true).unwrap(), "waiting for a.img, 1 s");
        assert_eq!(shown(3999, true).unwrap(), "waiting for a.img, 3 s");
    }
}
