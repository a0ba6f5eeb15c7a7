use super::*;
use crate::fact::Fact;
use crate::table::{Table, BOTH};

/// A section with these rows, each time a thousand times the row's place.
fn table(title: &str, lanes: &[&str], rows: &[&str]) -> Vec<Fact> {
    let mut table = Table::new(title, lanes);
    for (place, row) in (1..).zip(rows) {
        table.row(row, &[f64::from(place) * 1e3, f64::from(place) * 2e3]);
    }
    table.facts()
}

fn run() -> Vec<Fact> {
    let links = ["proved", "plain list"];
    let titles = FAMILIES.map(|family| family.title);
    let families = LENGTHS.map(|(words, _)| table(&families_title(words), &links, &titles));
    let mut facts = families.concat();
    for title in [BLOCKS, SHORT, LONG, ENTRIES] {
        facts.extend(table(title, &BOTH, &["64", "1,024"]));
    }
    facts.extend(table(LINKS, &links, &["64", "1,024"]));
    facts
}

fn drawn(idle: &[Vec<Fact>], loaded: &[Vec<Fact>]) -> Result<Vec<Picture>, String> {
    all(&Runs::of(idle, loaded).expect("runs"))
}

#[test]
fn every_lane_is_a_series_of_its_picture() {
    let all = drawn(&[run()], &[]).expect("pictures");
    for picture in &all[..3] {
        let names: Vec<&str> = picture
            .chart
            .series
            .iter()
            .map(|one| &one.name[..])
            .collect();
        assert_eq!(names, BOTH, "{}", picture.file);
    }
    assert_eq!(all[3].chart.series.len(), 3);
    assert_eq!(all[0].chart.ticks[1], (1024.0, "1,024".to_owned()));
    assert_eq!(all[0].chart.series[1].points[1].time, 4e3);
}

#[test]
fn the_families_are_drawn_beside_a_thick_plain_list_and_its_limits() {
    let all = drawn(&[run()], &[]).expect("pictures");
    let chart = &all[4].chart;
    assert_eq!(chart.series.len(), FAMILIES.len() + 1);
    let thick: Vec<&Series> = chart.series.iter().filter(|series| series.thick).collect();
    assert_eq!(thick.len(), 1);
    assert_eq!(thick[0].points[2].time, 2e3);
    let limits: Vec<(f64, f64)> = chart.limits.iter().map(|one| (one.x, one.time)).collect();
    assert_eq!(limits, [(1_048_576.0, 8e3), (16_777_216.0, 8e4)]);
}

#[test]
fn lines_are_medians_of_idle_runs_and_bands_hold_all_runs() {
    let times = |factor: f64| {
        let mut facts = run();
        facts.iter_mut().for_each(|fact| fact.ns *= factor);
        facts
    };
    let idle = [times(1.0), times(3.0), times(2.0)];
    let all = drawn(&idle, &[times(0.5), times(9.0)]).expect("pictures");
    let expected = Point {
        x: 64.0,
        time: 2e3,
        spread: (5e2, 9e3),
    };
    assert_eq!(all[0].chart.series[0].points[0], expected);
    assert!(all[0].chart.note.contains("3 idle runs") && all[0].chart.note.contains("2 loaded"));
}

#[test]
fn runs_without_a_section_or_a_row_of_a_picture_are_refused() {
    for gone in [BLOCKS, LINKS, "romfs: check of images of 4 MiB"] {
        let mut facts = run();
        facts.retain(|fact| fact.section != gone);
        let error = drawn(&[facts], &[]).err();
        let expected = format!("the runs have no section \"{gone}\"");
        assert_eq!(error, Some(expected));
    }
    let mut facts = run();
    facts.retain(|fact| fact.row != FAMILIES[3].title);
    assert!(drawn(&[facts], &[]).is_err_and(|error| error.contains("no row")));
}
