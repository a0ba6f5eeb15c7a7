//! The timing file: volumes with it and without it, arguments of its requests, and what the requests
//! on a volume so far promise of the next boots.

mod arguments;
mod promise;
mod reading;
mod volumes;
mod writing;

pub use arguments::{is_on_file, some_timing, timing_arguments, turn_to_file};
pub use promise::Promise;
pub use reading::{held, said, values_for};
use volumes::file_sizes;
pub use volumes::{put_file, timing_volume};
pub use writing::encoded;

/// The name of the file.
pub const NAME: &[u8] = b"TIMING";

/// Its size in bytes.
pub const SIZE: u32 = 64;
