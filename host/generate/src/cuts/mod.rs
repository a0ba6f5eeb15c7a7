//! Creates, removes and writes, and stores and openings of the timing file, as series of stores of
//! whole blocks, cut after any number of them, and what the rules then promise of the image.

mod change;
mod series;
mod standing;

pub use change::Change;
pub use series::{Series, Store};
pub use standing::{contents, Standing};
