//! A second implementation of the TFS and romfs rules, written from the rules alone.
//!
//! [`tfs`] and [`romfs`] answer requests on images in memory, [`timing`] those on a volume's timing
//! file, [`trace`] reads, writes and replays traces of requests; [`request`] has all of them in one
//! form.

#![forbid(unsafe_code)]
#![warn(missing_docs)]

mod refusal;
pub mod request;
pub mod romfs;
pub mod tfs;
pub mod timing;
pub mod trace;

pub use refusal::Refusal;
