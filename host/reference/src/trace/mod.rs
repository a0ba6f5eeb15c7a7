//! Traces: requests written down one after another, each with the answer expected of it.
//!
//! A record is a kind, the arguments of a request, the refusal number expected (0 for granted) and,
//! if that is 0, the result. [`read`] and [`write`] turn one record into bytes and back,
//! [`read_all`] and [`write_all`] a whole trace; [`replay`] makes the requests on a volume.

mod draft;
mod encoding;
mod record;
mod replay;

pub use draft::{Draft, Entry};
pub use encoding::{read, read_all, write, write_all, Malformed};
pub use record::{Expected, Field, Record};
pub use replay::{replay, Replayed};
