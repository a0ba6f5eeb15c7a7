use std::error::Error;
use std::fmt;

/// The reason why a request was not granted, as a number of the rules' tables and a place.
#[derive(Clone, Copy, Debug, PartialEq, Eq, Hash)]
pub struct Refusal {
    /// The number of the broken rule, 1 to 15 and 32 for TFS, 21 to 31 for romfs, 33 for traces and
    /// 34 to 37 for the timing file.
    pub number: u32,
    /// The slot, block or header at fault, and 0 where the rule names none.
    pub place: u32,
}

impl Refusal {
    /// Gives the refusal of a rule that names a place.
    pub const fn at(number: u32, place: u32) -> Self {
        Self { number, place }
    }

    /// Gives the refusal of a rule whose place is always 0.
    pub const fn plain(number: u32) -> Self {
        Self::at(number, 0)
    }
}

impl fmt::Display for Refusal {
    fn fmt(&self, f: &mut fmt::Formatter<'_>) -> fmt::Result {
        write!(f, "refused {} at {}", self.number, self.place)
    }
}

impl Error for Refusal {}
