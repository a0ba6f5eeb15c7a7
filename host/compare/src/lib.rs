//! The proved requests and the reference, run side by side on the same bytes and compared.
//!
//! [`run()`] draws images and sequences of requests from a seed. Each request runs on both sides,
//! each with its own copy of the image, the name and the buffer; then the answers, the copies and
//! the bytes around them must be the same. Creates, removes and writes, and stores and openings of the
//! timing file, are also made store by store and cut after every number of stores; what both sides
//! then give must keep the promises of cuts. Boots must keep what the requests before them promise.
//!
//! A module uses only modules of the layers below its own:
//!
//! ```text
//! options                      the words of the command line
//! run                          image after image, until a limit or a difference
//! volumes   roms   traces      the sequence of requests on one image or trace
//! cuts                         requests made store by store and cut, kept to their promises
//! drawn_volumes   drawn_timings   drawn_roms   drawn_traces   images, traces and arguments by chance
//! comparison                   a request on both sides, counted
//! pair   tally   sides         two programs with copies of an image; answers counted; the programs
//! answer   lent                an answer in the form of C; bytes lent, with noise around them
//! ```

#![forbid(unsafe_code)]
#![warn(missing_docs)]

mod answer;
mod comparison;
mod cuts;
mod drawn_roms;
mod drawn_timings;
mod drawn_traces;
mod drawn_volumes;
mod lent;
pub mod options;
mod pair;
mod roms;
mod run;
pub mod sides;
mod tally;
mod traces;
mod volumes;

pub use answer::Answer;
pub use lent::{Lent, LentValues, Lents};
pub use pair::{Difference, Pair, Side};
pub use run::{run, Found, Limits};
pub use tally::Tally;
