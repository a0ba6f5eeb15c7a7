//! What a boot is promised by the requests before it.

use reference::request::{Arguments, Request};
use reference::timing::{Timing, VALUES};

use super::NAME;

/// What the requests on a volume so far promise of the next boots.
#[derive(Clone, Copy, Debug, Default, PartialEq, Eq)]
pub enum Promise {
    /// Nothing; the file may have been written by other requests.
    #[default]
    Nothing,
    /// No boot gets values: the lid was opened, or the file went and was not stored again.
    NoValues,
    /// This was stored: a boot with both numbers gets the values, and any other none.
    Stored(Timing),
}

impl Promise {
    /// The promise after one more request, which was granted.
    pub fn after(self, request: Request, arguments: &Arguments) -> Self {
        let on_file = arguments.name == NAME;
        match request {
            Request::TimingStore => Self::Stored(arguments.timing),
            Request::TimingOpenLid | Request::TfsFormat => Self::NoValues,
            // A file that was just created holds zeros.
            Request::TfsCreate | Request::TfsRemove if on_file => Self::NoValues,
            Request::TfsWrite if on_file => Self::Nothing,
            Request::TfsReplay if names_file(&arguments.buffer) => Self::Nothing,
            _ => self,
        }
    }

    /// Tells whether a boot keeps the promise, by the numbers that it was given, whether it was
    /// granted, and its values.
    pub fn kept(
        &self,
        (board, maker): (u32, u32),
        granted: bool,
        values: &[u16; VALUES],
    ) -> Result<(), &'static str> {
        let theirs = |stored: &Timing| (stored.board, stored.maker) == (board, maker);
        if !granted && values.iter().any(|value| *value != 0) {
            return Err("a refused boot has values");
        }
        match self {
            Self::NoValues if granted => Err("a boot gets values and none are stored"),
            Self::Stored(stored) if theirs(stored) => match granted && *values == stored.values {
                true => Ok(()),
                false => Err("a boot with the stored numbers does not get the stored values"),
            },
            Self::Stored(_) if granted => Err("a boot with other numbers gets values"),
            _ => Ok(()),
        }
    }
}

/// Tells whether the name of the file stands anywhere in a trace.
fn names_file(trace: &[u8]) -> bool {
    trace.windows(NAME.len()).any(|part| part == NAME)
}
