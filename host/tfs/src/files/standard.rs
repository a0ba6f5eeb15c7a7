//! Standard input and output, which may have been closed before this program began.

use super::STANDARD;
use crate::failure::Failure;
use std::io::{self, StdoutLock};
use std::path::Path;

const INPUT: usize = 0;
const OUTPUT: usize = 1;

/// Standard output, to be written to.
pub fn output() -> Result<StdoutLock<'static>, Failure> {
    match process::was_closed(OUTPUT) {
        true => Err(Failure::NoOutput),
        false => Ok(io::stdout().lock()),
    }
}

/// Fails where a path is one of standard input, and that was closed.
pub fn is_open(path: &Path) -> Result<(), Failure> {
    let names = [STANDARD, "/dev/stdin", "/dev/fd/0", "/proc/self/fd/0"];
    match names.iter().any(|name| path == Path::new(name)) && process::was_closed(INPUT) {
        true => Err(Failure::NoInput),
        false => Ok(()),
    }
}
