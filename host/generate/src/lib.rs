//! Images and requests for tests, generated from a seed: the same seed gives the same bytes.
//!
//! [`tfs`] and [`romfs`] build images, sound and damaged, [`timing`] volumes with a timing file,
//! [`traces`] sessions on volumes, [`cuts`] changes of volumes that are cut in the middle, and
//! [`cases`] draws requests on them and notes the answers of the reference. The reference has a part
//! in the images only where a volume is to have a history of requests, or is cut in the middle of
//! one.

#![forbid(unsafe_code)]
#![warn(missing_docs)]

pub mod cases;
pub mod cuts;
mod random;
pub mod romfs;
pub mod tfs;
pub mod timing;
pub mod traces;

pub use random::Random;
