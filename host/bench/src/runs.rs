//! What several runs measured, side by side.

use std::fs;
use std::path::Path;

use crate::fact::Fact;

/// In the title of a section whose times are differences.
pub const LESS_CHECK: &str = "less the check";

/// The numbers of all runs, one for each in order.
#[derive(Clone, Debug, Default, PartialEq)]
pub struct Numbers {
    /// Of the runs on an idle machine.
    pub idle: Vec<f64>,
    /// Of those on a loaded one.
    pub loaded: Vec<f64>,
}

/// A row with the times of each lane.
#[derive(Clone, Debug, PartialEq)]
pub struct Row {
    /// Its title.
    pub title: String,
    /// For each lane of the section.
    pub times: Vec<Numbers>,
    /// Whether the times are differences, which may be next to nothing.
    pub differences: bool,
}

/// A table of all runs.
#[derive(Clone, Debug, PartialEq)]
pub struct Section {
    /// Its title.
    pub title: String,
    /// What was timed.
    pub lanes: Vec<String>,
    /// Its rows.
    pub rows: Vec<Row>,
}

/// All sections in the order of the first run.
#[derive(Clone, Debug, PartialEq)]
pub struct Runs {
    /// The tables.
    pub sections: Vec<Section>,
    /// The number of idle runs.
    pub idle: usize,
    /// The number of loaded runs.
    pub loaded: usize,
}

/// A run's facts, or the line that is none.
pub fn facts(text: &str) -> Result<Vec<Fact>, String> {
    text.lines().map(str::parse).collect()
}

impl Runs {
    /// Puts runs together; each must have measured the same.
    pub fn of(idle: &[Vec<Fact>], loaded: &[Vec<Fact>]) -> Result<Self, String> {
        let mut runs = Self {
            sections: Vec::new(),
            idle: idle.len(),
            loaded: loaded.len(),
        };
        for fact in idle.iter().flatten() {
            runs.numbers(fact).idle.push(fact.ns);
        }
        for fact in loaded.iter().flatten() {
            runs.numbers(fact).loaded.push(fact.ns);
        }
        runs.all_alike()?;
        Ok(runs)
    }

    /// Reads the files `idle-*` and `loaded-*` of a folder.
    pub fn read(folder: &Path) -> Result<Self, String> {
        let idle = read_all(folder, "idle-")?;
        if idle.is_empty() {
            return Err(format!("{}: no file idle-*", folder.display()));
        }
        Self::of(&idle, &read_all(folder, "loaded-")?)
    }

    /// The section of a title.
    pub fn section(&self, title: &str) -> Option<&Section> {
        self.sections.iter().find(|section| section.title == title)
    }

    /// All rows with their sections.
    pub fn rows(&self) -> impl Iterator<Item = (&Section, &Row)> {
        let sections = self.sections.iter();
        sections.flat_map(|section| section.rows.iter().map(move |row| (section, row)))
    }

    /// Where the times of a fact's lane stand, which are added if they are new.
    fn numbers(&mut self, fact: &Fact) -> &mut Numbers {
        let section = place(
            &mut self.sections,
            |section| section.title == fact.section,
            || Section {
                title: fact.section.clone(),
                lanes: Vec::new(),
                rows: Vec::new(),
            },
        );
        let known = section.lanes.iter().position(|lane| *lane == fact.lane);
        let lane = known.unwrap_or_else(|| {
            section.lanes.push(fact.lane.clone());
            section.lanes.len() - 1
        });
        let row = place(
            &mut section.rows,
            |row| row.title == fact.row,
            || Row {
                title: fact.row.clone(),
                times: Vec::new(),
                differences: fact.section.contains(LESS_CHECK),
            },
        );
        row.times.resize_with(section.lanes.len(), Numbers::default);
        &mut row.times[lane]
    }

    /// Refuses a row that is not once in each run with all its lanes.
    fn all_alike(&self) -> Result<(), String> {
        let whole = |section: &Section, row: &Row| {
            let mut times = row.times.iter();
            row.times.len() == section.lanes.len()
                && times.all(|of| of.idle.len() == self.idle && of.loaded.len() == self.loaded)
        };
        match self.rows().find(|(section, row)| !whole(section, row)) {
            Some((section, row)) => Err(format!(
                "{}: {}: not once in each run",
                section.title, row.title
            )),
            None => Ok(()),
        }
    }
}

/// The first item that fits, or a new one at the end.
fn place<T>(items: &mut Vec<T>, fits: impl Fn(&T) -> bool, new: impl FnOnce() -> T) -> &mut T {
    let index = items.iter().position(fits).unwrap_or_else(|| {
        items.push(new());
        items.len() - 1
    });
    &mut items[index]
}

/// The runs in the files of a folder whose names begin so, in the order of the names.
fn read_all(folder: &Path, start: &str) -> Result<Vec<Vec<Fact>>, String> {
    let told = |error: std::io::Error| format!("{}: {error}", folder.display());
    let names = fs::read_dir(folder).map_err(told)?;
    let names = names.map(|name| name.map(|name| name.path()));
    let mut names: Vec<_> = names.collect::<Result<_, _>>().map_err(told)?;
    names.retain(|name| {
        let last = name.file_name().and_then(|last| last.to_str());
        last.is_some_and(|last| last.starts_with(start))
    });
    names.sort();
    let run = |name: &std::path::PathBuf| {
        let text = fs::read_to_string(name).map_err(|error| error.to_string());
        text.and_then(|text| facts(&text))
            .map_err(|error| format!("{}: {error}", name.display()))
    };
    names.iter().map(run).collect()
}

/// What the clock cannot tell from nothing, in nanoseconds.
const NOISE: f64 = 1.0;

impl Row {
    /// How many times as long the first lane takes as another, in each run; nothing if one of the times is below the
    /// clock's noise. But a difference of the first lane may be next to nothing, within the noise: a small part of what the
    /// other takes.
    pub fn ratios(&self, lane: usize) -> Option<Numbers> {
        let (ours, other) = (&self.times[0], &self.times[lane]);
        let ratio = |(ours, other): (&f64, &f64)| {
            let least = if self.differences { -NOISE } else { NOISE };
            let told = *other >= NOISE && *ours >= least;
            told.then(|| ours.max(0.0) / other)
        };
        let ratios = |ours: &[f64], other: &[f64]| -> Option<Vec<f64>> {
            ours.iter().zip(other).map(ratio).collect()
        };
        Some(Numbers {
            idle: ratios(&ours.idle, &other.idle)?,
            loaded: ratios(&ours.loaded, &other.loaded)?,
        })
    }
}

/// The middle one of some numbers, or the mean of the middle two.
pub fn median(numbers: &[f64]) -> f64 {
    let mut numbers = numbers.to_vec();
    numbers.sort_by(f64::total_cmp);
    let middle = numbers.len() / 2;
    match numbers.len() % 2 {
        1 => numbers[middle],
        _ => (numbers[middle - 1] + numbers[middle]) / 2.0,
    }
}

/// The lowest and the highest of some numbers.
pub fn spread(numbers: impl IntoIterator<Item = f64>) -> (f64, f64) {
    let ends = (f64::INFINITY, f64::NEG_INFINITY);
    let numbers = numbers.into_iter();
    numbers.fold(ends, |(low, high), number| {
        (low.min(number), high.max(number))
    })
}

#[cfg(test)]
mod tests {
    use super::*;

    const RUN: &str = "s\ta\tproved\t10\ns\ta\treference\t20\ns\tb\tproved\t3\ns\tb\treference\t2";

    fn run(text: &str) -> Vec<Fact> {
        facts(text).expect("facts")
    }

    #[test]
    fn the_times_of_each_run_stand_in_order() {
        let (first, second) = (run(RUN), run(&RUN.replace("10", "15")));
        let runs = Runs::of(&[first.clone(), second], &[first]).expect("runs");
        let section = runs.section("s").expect("section");
        assert_eq!(section.lanes, ["proved", "reference"]);
        assert_eq!(section.rows[0].times[0].idle, [10.0, 15.0]);
        assert_eq!(section.rows[0].times[0].loaded, [10.0]);
        let ratios = section.rows[0].ratios(1).expect("ratios");
        assert_eq!((ratios.idle, ratios.loaded), (vec![0.5, 0.75], vec![0.5]));
    }

    #[test]
    fn runs_that_measured_different_rows_are_refused() {
        let short = RUN.rsplit_once('\n').expect("lines").0;
        let twice = format!("{RUN}\n{RUN}");
        for other in [short, &twice] {
            assert!(Runs::of(&[run(RUN), run(other)], &[]).is_err());
            assert!(Runs::of(&[run(RUN)], &[run(other)]).is_err());
            assert!(Runs::of(&[run(other)], &[]).is_err());
        }
    }

    #[test]
    fn a_time_below_the_clocks_noise_has_no_ratio() {
        let runs = Runs::of(&[run(RUN), run(&RUN.replace("10", "0.5"))], &[]).expect("runs");
        assert_eq!(runs.sections[0].rows[0].ratios(1), None);
        assert!(runs.sections[0].rows[1].ratios(1).is_some());
    }

    #[test]
    fn a_difference_below_the_clocks_noise_has_a_ratio_to_one_above_it() {
        let text = RUN.replace("s\t", "s, less the check\t");
        for (ours, expected) in [("0.5", 0.025), ("0", 0.0), ("-0.5", 0.0)] {
            let runs = Runs::of(&[run(&text.replace("10", ours))], &[]).expect("runs");
            let ratios = runs.sections[0].rows[0].ratios(1).expect("ratios");
            assert_eq!(ratios.idle, [expected]);
        }
        for unclear in [text.replace("20", "0.5"), text.replace("10", "-3")] {
            let runs = Runs::of(&[run(&unclear)], &[]).expect("runs");
            assert_eq!(runs.sections[0].rows[0].ratios(1), None);
        }
    }

    #[test]
    fn the_median_is_in_the_middle_and_the_spread_at_the_ends() {
        assert_eq!(median(&[9.0, 1.0, 5.0]), 5.0);
        assert_eq!(median(&[9.0, 1.0, 5.0, 6.0]), 5.5);
        assert_eq!(spread([9.0, 1.0, 5.0]), (1.0, 9.0));
    }
}
