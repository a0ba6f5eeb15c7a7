//! Tables in Markdown.

use std::iter::once;

use crate::runs::{median, spread, Numbers, Row, Runs, Section};
use crate::table::digits;

/// All tables, and under that of a section what is given for its title.
pub fn tables(runs: &Runs, under: &[(String, String)]) -> String {
    let below = |section: &Section| {
        let lines = under.iter().filter(|(title, _)| *title == section.title);
        lines.map(|(_, line)| line.as_str()).collect::<String>()
    };
    let tables = runs.sections.iter();
    tables
        .map(|section| table(section) + &below(section))
        .collect()
}

/// The table of a section under its title: the times of each lane, then the first beside each other one.
fn table(section: &Section) -> String {
    let lanes = &section.lanes;
    let times = lanes.iter().map(|lane| format!("{lane} ns"));
    let ratios = lanes[1..].iter();
    let ratios = ratios.map(|lane| format!("{} / {lane}", lanes[0]));
    let heads: Vec<String> = once(String::new()).chain(times).chain(ratios).collect();
    let line = "|---".to_owned() + &"|---:".repeat(heads.len() - 1);
    let rows: String = section.rows.iter().map(row).collect();
    format!(
        "\n### {}\n\n|{} |\n{line}|\n{rows}",
        section.title,
        heads.join(" | ")
    )
}

fn row(row: &Row) -> String {
    let times = row.times.iter();
    let times = times.map(|times| digits(median(&times.idle)));
    let ratios = (1..row.times.len()).map(|lane| ratio(row.ratios(lane)));
    let cells: Vec<String> = once(row.title.clone()).chain(times).chain(ratios).collect();
    format!("| {} |\n", cells.join(" | "))
}

/// The median of the idle runs and how far the runs lie apart, if there are several.
fn ratio(ratios: Option<Numbers>) -> String {
    let Some(Numbers { idle, loaded }) = ratios else {
        return "-".to_owned();
    };
    let middle = format!("{:.2}", median(&idle));
    let ends = |numbers: &[f64]| {
        let (low, high) = spread(numbers.iter().copied());
        format!("{low:.2}–{high:.2}")
    };
    match (idle.len(), loaded.len()) {
        (1, 0) => middle,
        (_, 0) => format!("{middle} ({})", ends(&idle)),
        _ => format!("{middle} ({}; loaded {})", ends(&idle), ends(&loaded)),
    }
}

#[cfg(test)]
mod tests {
    use super::*;
    use crate::runs::facts;

    const RUN: &str = "s\ta\tproved\t1100\ns\ta\treference\t2000\ns\ta\tcopy\t1000";

    fn printed(idle: &[&str], loaded: &[&str]) -> String {
        let run = |text: &&str| facts(text).expect("facts");
        let idle: Vec<_> = idle.iter().map(run).collect();
        let loaded: Vec<_> = loaded.iter().map(run).collect();
        tables(&Runs::of(&idle, &loaded).expect("runs"), &[])
    }

    #[test]
    fn one_run_has_plain_cells() {
        let expected = "\n### s\n\n\
            | | proved ns | reference ns | copy ns | proved / reference | proved / copy |\n\
            |---|---:|---:|---:|---:|---:|\n\
            | a | 1,100 | 2,000 | 1,000 | 0.55 | 1.10 |\n";
        assert_eq!(printed(&[RUN], &[]), expected);
    }

    #[test]
    fn several_runs_have_their_spread() {
        let (fast, slow) = (RUN.replace("1100", "1000"), RUN.replace("1100", "1400"));
        let idle = printed(&[RUN, &fast, &slow], &[]);
        assert!(idle.contains("| a | 1,100 | 2,000 | 1,000 | 0.55 (0.50–0.70) |"));
        let both = printed(&[RUN, &fast, &slow], &[&slow, RUN]);
        assert!(both.contains("| 0.55 (0.50–0.70; loaded 0.55–0.70) |"));
    }

    #[test]
    fn a_picture_stands_under_its_table() {
        let text = format!("{RUN}\n{}", RUN.replace("s\t", "other\t"));
        let runs = Runs::of(&[facts(&text).expect("facts")], &[]).expect("runs");
        let printed = tables(&runs, &[("s".to_owned(), "PICTURE\n".to_owned())]);
        assert!(
            printed.contains("| 1.10 |\nPICTURE\n\n### other\n"),
            "{printed}"
        );
    }

    #[test]
    fn a_ratio_below_the_clocks_noise_is_a_dash() {
        let text = RUN.replace("1100", "-3");
        assert!(printed(&[&text], &[]).ends_with("| a | 0 | 2,000 | 1,000 | - | - |\n"));
    }
}
