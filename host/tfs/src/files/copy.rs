//! The rest of a long file copied in pieces.

use crate::progress::Progress;
use std::fs::File;
use std::io::{self, Read, Seek, SeekFrom, Write};

/// The number of bytes that are held at a time.
const PIECE: usize = 1 << 20;

/// Copies what stands in a file behind the bytes that were read of it, so many, to the place up to
/// which another was written. Pieces of zeros become holes.
pub fn copy_rest(from: &File, read: u64, mut to: &File, what: &str) -> io::Result<()> {
    let rest = from.metadata()?.len().saturating_sub(read);
    let mut progress = Progress::new(what, rest);
    let mut piece = Vec::new();
    process::tried(|| piece.try_reserve_exact(PIECE))?;
    let mut copied = 0;
    while from.take(PIECE as u64).read_to_end(&mut piece)? > 0 {
        // Zeros alone: the first byte is one, and each is as the next.
        if piece[0] == 0 && piece[1..] == piece[..piece.len() - 1] {
            to.seek(SeekFrom::Current(piece.len() as i64))?;
        } else {
            to.write_all(&piece)?;
        }
        copied += piece.len() as u64;
        progress.add(piece.len() as u64);
        piece.clear();
    }
    if copied < rest {
        return Err(io::Error::other("became shorter while it was read"));
    }
    to.set_len(to.stream_position()?)
}
