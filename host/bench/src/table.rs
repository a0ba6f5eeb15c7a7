//! The times of one section as they are measured.

use crate::fact::Fact;

/// Rows of times, one for each lane.
pub struct Table {
    title: String,
    lanes: Vec<String>,
    facts: Vec<Fact>,
}

impl Table {
    /// Starts a table. In the tables of a report the first lane is compared with each of the others.
    pub fn new(title: &str, lanes: &[&str]) -> Self {
        Self {
            title: title.to_owned(),
            lanes: lanes.iter().map(|lane| (*lane).to_owned()).collect(),
            facts: Vec::new(),
        }
    }

    /// Adds a row with the nanoseconds of each lane.
    pub fn row(&mut self, title: &str, times: &[f64]) {
        assert_eq!(times.len(), self.lanes.len());
        for (lane, ns) in self.lanes.iter().zip(times) {
            self.facts.push(Fact {
                section: self.title.clone(),
                row: title.to_owned(),
                lane: lane.clone(),
                ns: *ns,
            });
        }
    }

    /// What was measured, in order.
    pub fn facts(self) -> Vec<Fact> {
        self.facts
    }
}

/// The lanes of most tables.
pub const BOTH: [&str; 2] = ["proved", "reference"];

/// A whole number with separators.
pub fn digits(number: f64) -> String {
    let digits = format!("{:.0}", number.max(0.0));
    let mut out = String::new();
    for (index, digit) in digits.chars().enumerate() {
        if index > 0 && (digits.len() - index) % 3 == 0 {
            out.push(',');
        }
        out.push(digit);
    }
    out
}

#[cfg(test)]
mod tests {
    use super::*;

    #[test]
    fn digits_stand_in_threes() {
        let shown = [0.0, 7.4, 999.6, 65_024.0, 1_048_576.0, -3.0].map(digits);
        assert_eq!(shown, ["0", "7", "1,000", "65,024", "1,048,576", "0"]);
    }

    #[test]
    fn a_row_gives_a_fact_for_each_lane() {
        let mut table = Table::new("section", &BOTH);
        table.row("row", &[1.0, 2.0]);
        let lines: Vec<String> = table.facts().iter().map(Fact::to_string).collect();
        assert_eq!(
            lines,
            ["section\trow\tproved\t1", "section\trow\treference\t2"]
        );
    }
}
