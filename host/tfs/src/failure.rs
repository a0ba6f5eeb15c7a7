//! Why a command failed, in one line, and the exit status that tells it.

use crate::words;
use proved::Refusal;
use std::fmt;
use std::io;
use std::path::{Path, PathBuf};

/// What a command gives for standard output, or why it failed.
pub type Outcome = Result<Vec<u8>, Failure>;

/// The last refusal of a volume as a whole; those behind it are of a request.
const LAST_OF_VOLUME: u32 = 7;

/// Why a command failed.
#[derive(Debug)]
pub enum Failure {
    /// The command line is wrong.
    Usage(String),
    /// The rules of the filesystem refuse it.
    Refused {
        /// The file with the filesystem.
        image: PathBuf,
        /// The name that was refused, if several were given.
        name: Option<Vec<u8>>,
        refusal: Refusal,
        cause: String,
    },
    /// A part of a file in this image goes past the file's end.
    PastEnd(PathBuf, String),
    /// This host file cannot be read or written.
    Host(PathBuf, String),
    /// Other commands have held this host file for so many seconds.
    Busy(PathBuf, u32),
    /// This folder has all of an image but so many entries.
    Skipped(PathBuf, usize),
    /// Standard input was closed before the command began.
    NoInput,
    /// Standard output was closed before the command began.
    NoOutput,
    /// Standard output cannot be written to.
    Output(String),
    /// Nobody reads what is written to a stream any more.
    Closed,
    /// A request of this trace was answered otherwise than expected.
    Differs(PathBuf, String),
    /// This trace has a malformed record, or these lines or values a bad one.
    Malformed(PathBuf, String),
    /// The command has told of its failures itself; the highest of their statuses is this.
    Told(u8),
}

impl Failure {
    /// A refusal for a cause.
    pub fn refused(image: &Path, refusal: Refusal, cause: String) -> Self {
        Self::Refused {
            image: image.to_path_buf(),
            name: None,
            refusal,
            cause,
        }
    }

    /// The failure at one of several names, which a refusal then tells, unless it is one of the
    /// volume as a whole.
    pub fn at_name(mut self, given: &[u8]) -> Self {
        if let Self::Refused { name, refusal, .. } = &mut self {
            if refusal.number > LAST_OF_VOLUME {
                *name = Some(given.to_vec());
            }
        }
        self
    }

    /// A failure with a host file.
    pub fn host(path: &Path, why: impl fmt::Display) -> Self {
        Self::Host(path.to_path_buf(), why.to_string())
    }

    /// A failure with standard output, whose reader may have gone.
    pub fn output(error: io::Error) -> Self {
        match error.kind() {
            io::ErrorKind::BrokenPipe => Self::Closed,
            _ => Self::Output(error.to_string()),
        }
    }

    /// A failure with another stream.
    pub fn stream(path: &Path, error: io::Error) -> Self {
        match error.kind() {
            io::ErrorKind::BrokenPipe => Self::Closed,
            _ => Self::host(path, error),
        }
    }

    /// The failure with a host file after another has been changed.
    pub fn but_changed(self, other: &Path) -> Self {
        match self {
            Self::Host(path, why) => {
                let changed = other.display();
                Self::Host(
                    path,
                    format!("{why}; {changed} has been changed, the trace has not"),
                )
            }
            failure => failure,
        }
    }

    /// The exit status.
    pub fn status(&self) -> u8 {
        match self {
            Self::Refused { .. } | Self::PastEnd(..) => 1,
            Self::Usage(_) => 2,
            Self::Host(..) | Self::NoInput | Self::NoOutput | Self::Output(_) => 3,
            Self::Differs(..) => 4,
            Self::Malformed(..) => 5,
            Self::Busy(..) => 6,
            Self::Skipped(..) => 7,
            Self::Told(status) => *status,
            // As a shell shows the signal of a closed pipe.
            Self::Closed => 141,
        }
    }
}

impl fmt::Display for Failure {
    fn fmt(&self, f: &mut fmt::Formatter<'_>) -> fmt::Result {
        match self {
            Self::Usage(why) => f.write_str(why),
            Self::Refused {
                image,
                name,
                refusal,
                cause,
            } => {
                write!(f, "{}: ", image.display())?;
                if let Some(name) = name {
                    write!(f, "{}: ", words::start_of_name(name))?;
                }
                write!(f, "refused {}: {cause}", refusal.number)
            }
            Self::Host(path, why) | Self::PastEnd(path, why) => {
                write!(f, "{}: {why}", path.display())
            }
            Self::Differs(path, why) | Self::Malformed(path, why) => {
                write!(f, "{}: {why}", path.display())
            }
            Self::Busy(path, seconds) => {
                let held = match seconds {
                    0 => "holds it".to_string(),
                    _ => format!("has held it for {}", words::count(seconds, "second")),
                };
                write!(f, "{}: busy: another command {held}", path.display())
            }
            Self::Skipped(folder, count) => {
                let entries = if *count == 1 { "entry" } else { "entries" };
                let folder = folder.display();
                write!(f, "{folder}: extracted but for {count} {entries}")
            }
            Self::NoInput => f.write_str("standard input is closed"),
            Self::NoOutput => f.write_str("standard output is closed"),
            Self::Output(why) => write!(f, "standard output: {why}"),
            Self::Closed => f.write_str("nobody reads the output"),
            Self::Told(_) => f.write_str("told already"),
        }
    }
}
