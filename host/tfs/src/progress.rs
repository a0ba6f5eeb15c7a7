//! How far long work has come, shown on a terminal.

mod waiting;

pub use waiting::Waiting;

use std::io::{self, IsTerminal, Write};
use std::time::{Duration, Instant};

/// Work that is done sooner shows nothing.
const PATIENCE: Duration = Duration::from_secs(1);

/// The time between two drawings.
const PAUSE: Duration = Duration::from_millis(100);

/// How much is done, and of how much; that is 0 where it is not known.
#[derive(Clone, Copy, Default)]
struct Count {
    done: u64,
    total: u64,
}

/// Work on a number of bytes. Its line goes when this goes.
pub struct Progress {
    what: String,
    files: Count,
    bytes: Count,
    start: Instant,
    terminal: bool,
    drawn: Option<Instant>,
}

impl Progress {
    /// Work that begins now.
    pub fn new(what: &str, total: u64) -> Self {
        Self {
            what: what.replace(char::is_control, "?"),
            files: Count::default(),
            bytes: Count { done: 0, total },
            start: Instant::now(),
            terminal: io::stderr().is_terminal(),
            drawn: None,
        }
    }

    /// The bytes are those of so many files.
    pub fn of_files(mut self, total: usize) -> Self {
        self.files.total = total as u64;
        self
    }

    /// One more file is done, with so many bytes.
    pub fn add_file(&mut self, count: u64) {
        self.files.done += 1;
        self.add(count);
    }

    /// So many bytes more are done.
    pub fn add(&mut self, count: u64) {
        self.bytes.done += count;
        if self.drawn.is_some_and(|drawn| drawn.elapsed() < PAUSE) {
            return;
        }
        let shown = share(self.start.elapsed(), self.terminal, self.files, self.bytes);
        if let Some(share) = shown {
            // What cannot be shown is no failure of the work.
            let _ = write!(io::stderr(), "\r{}: {share}\x1b[K", self.what);
            self.drawn = Some(Instant::now());
        }
    }
}

impl Drop for Progress {
    fn drop(&mut self) {
        if self.drawn.is_some() {
            let _ = write!(io::stderr(), "\r\x1b[K");
        }
    }
}

/// What is shown of work after some time, if anything is. Files are counted where there are several.
fn share(elapsed: Duration, terminal: bool, files: Count, bytes: Count) -> Option<String> {
    if !terminal || elapsed < PATIENCE {
        return None;
    }
    let files = match files.total {
        0 | 1 => String::new(),
        total => format!("{} of {total} files, ", files.done),
    };
    let Count { done, total } = bytes;
    if total == 0 {
        return Some(files + &size(done));
    }
    let percent = u128::from(done) * 100 / u128::from(total);
    let (done, total) = (size(done), size(total));
    Some(format!("{files}{done} of {total} ({percent}%)"))
}

/// A number of bytes in the unit that fits, cut to a tenth of it.
fn size(bytes: u64) -> String {
    let (unit, shift) = match bytes {
        0..0x10_0000 => ("KiB", 10),
        0x10_0000..0x4000_0000 => ("MiB", 20),
        _ => ("GiB", 30),
    };
    let tenths = (u128::from(bytes) * 10) >> shift;
    format!("{}.{} {unit}", tenths / 10, tenths % 10)
}

#[cfg(test)]
mod tests {
    use super::*;

    const SECOND: Duration = Duration::from_secs(1);
    const HALF: Count = count(1024, 2048);
    const NO_FILES: Count = count(0, 0);

    const fn count(done: u64, total: u64) -> Count {
        Count { done, total }
    }

    fn shown(files: Count, bytes: Count) -> String {
        share(SECOND, true, files, bytes).unwrap()
    }

    #[test]
    fn nothing_is_shown_in_the_first_second() {
        for early in [Duration::ZERO, Duration::from_millis(999)] {
            assert_eq!(share(early, true, NO_FILES, HALF), None);
        }
        assert!(share(SECOND, true, NO_FILES, HALF).is_some());
    }

    #[test]
    fn nothing_is_shown_but_on_a_terminal() {
        assert_eq!(share(5 * SECOND, false, NO_FILES, HALF), None);
        assert_eq!(share(5 * SECOND, false, count(1, 2), HALF), None);
    }

    #[test]
    fn bytes_and_percent_are_shown() {
        for (done, total, line) in [
            (512, 2048, "0.5 KiB of 2.0 KiB (25%)"),
            (3 << 19, 3 << 30, "1.5 MiB of 3.0 GiB (0%)"),
        ] {
            assert_eq!(shown(NO_FILES, count(done, total)), line);
        }
        assert!(shown(NO_FILES, count(u64::MAX, u64::MAX)).ends_with(" (100%)"));
    }

    #[test]
    fn work_of_unknown_length_has_no_percent() {
        assert_eq!(shown(NO_FILES, count(1536, 0)), "1.5 KiB");
    }

    #[test]
    fn several_files_are_counted_before_their_bytes() {
        for (files, bytes, line) in [
            (count(2, 5), HALF, "2 of 5 files, 1.0 KiB of 2.0 KiB (50%)"),
            (count(2, 25), count(1536, 0), "2 of 25 files, 1.5 KiB"),
            (count(1, 1), HALF, "1.0 KiB of 2.0 KiB (50%)"),
        ] {
            assert_eq!(shown(files, bytes), line);
        }
    }

    #[test]
    fn a_file_adds_itself_and_its_bytes() {
        let mut progress = Progress::new("work", 2048).of_files(3);
        progress.add_file(512);
        progress.add(256);
        progress.add_file(256);
        let line = "2 of 3 files, 1.0 KiB of 2.0 KiB (50%)";
        assert_eq!(shown(progress.files, progress.bytes), line);
    }
}
