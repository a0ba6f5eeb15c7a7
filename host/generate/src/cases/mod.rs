//! Requests on generated images together with the answers owed to them.

mod case;
mod drawn;
mod mends;
mod ranges;
mod romfs;
mod romfs_arguments;
mod store_arguments;
mod stores;
mod tfs;
mod tfs_arguments;
mod timings;
mod trace_arguments;
mod traces;

pub use case::{fnv1a, Answer, Case};
pub(crate) use ranges::around_edges;
pub use romfs::romfs_cases;
pub use romfs_arguments::romfs_arguments;
pub(crate) use store_arguments::{some_k, some_room};
pub use store_arguments::{store_arguments, stored};
pub use tfs::tfs_cases;
pub use tfs_arguments::tfs_arguments;
pub use trace_arguments::trace_arguments;
