//! A measured time, and the line that stands for it.

use std::fmt;
use std::str::FromStr;

/// The time of a lane in a row of a section.
#[derive(Clone, Debug, PartialEq)]
pub struct Fact {
    /// The title of the table.
    pub section: String,
    /// The title of the row.
    pub row: String,
    /// What was timed: the proved request, the reference, or another beside them.
    pub lane: String,
    /// Nanoseconds.
    pub ns: f64,
}

impl fmt::Display for Fact {
    fn fmt(&self, out: &mut fmt::Formatter<'_>) -> fmt::Result {
        let Self {
            section,
            row,
            lane,
            ns,
        } = self;
        write!(out, "{section}\t{row}\t{lane}\t{ns}")
    }
}

impl FromStr for Fact {
    type Err = String;

    fn from_str(line: &str) -> Result<Self, String> {
        let parts: Vec<&str> = line.split('\t').collect();
        let bad = || format!("not section, row, lane and time: {line:?}");
        let &[section, row, lane, ns] = &parts[..] else {
            return Err(bad());
        };
        let ns = ns.parse().ok().filter(|ns: &f64| ns.is_finite());
        Ok(Self {
            section: section.to_owned(),
            row: row.to_owned(),
            lane: lane.to_owned(),
            ns: ns.ok_or_else(bad)?,
        })
    }
}

#[cfg(test)]
mod tests {
    use super::*;

    #[test]
    fn a_line_gives_back_its_fact() {
        let fact = Fact {
            section: "TFS: a volume of 2 MiB".to_owned(),
            row: "check, 8 files".to_owned(),
            lane: "proved".to_owned(),
            ns: -0.123_456_789,
        };
        assert_eq!(fact.to_string().parse(), Ok(fact));
    }

    #[test]
    fn a_line_of_another_form_is_refused() {
        for line in [
            "",
            "a\tb\t1",
            "a\tb\tc\t1\t2",
            "a\tb\tc\tx",
            "a\tb\tc\tNaN",
            "a\tb\tc\tinf",
        ] {
            assert!(line.parse::<Fact>().is_err(), "{line:?}");
        }
    }
}
