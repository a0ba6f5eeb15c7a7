//! Requests on a TFS volume of 512-byte blocks that lies in a borrowed image.
//!
//! Every request but [`format()`] and [`mend()`] checks the whole volume first. A refused request
//! changes neither the image nor a buffer.

mod directory;
mod effects;
pub(crate) mod known;
mod layout;
mod mend;
mod room;
mod stores;
mod transfer;
mod volume;

pub use directory::{create, format, free_bytes, list, remove, Listing};
pub use layout::{BLOCK_SIZE, LARGEST_FILE, MAGIC, MOST_BLOCKS, SLOTS};
pub use mend::mend;
pub use stores::{create_store, remove_store, write_store};
pub use transfer::{blocks_met, read, write, Transferred};
pub use volume::check;
