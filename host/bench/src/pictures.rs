//! The pictures of the report: how times grow.

use std::fs;
use std::path::Path;

use generate::romfs::FAMILIES;

use crate::chart::{Chart, Limit, Point, Scale, Series};
use crate::on_romfs::{families_title, LENGTHS};
use crate::runs::{median, spread, Numbers, Runs, Section};

/// A chart, the name of its file, and the section whose table it stands under.
struct Picture {
    file: &'static str,
    under: String,
    chart: Chart,
}

const BLOCKS: &str = "TFS: check of an empty volume, by blocks";
const SHORT: &str = "TFS: check of 4,096 blocks, by files of 1,000 bytes";
const LONG: &str = "TFS: check of 4,096 blocks, by files of 65,024 bytes";
const ENTRIES: &str = "romfs: check of one list, by entries";
const LINKS: &str = "romfs: check of one list with a quarter hard links, by entries";

/// Draws all pictures into a folder, and gives for each the title of its section and its line in Markdown, which leads to
/// the folder from beside it.
pub fn draw(runs: &Runs, folder: &Path) -> Result<Vec<(String, String)>, String> {
    let told = |error: std::io::Error| format!("{}: {error}", folder.display());
    fs::create_dir_all(folder).map_err(told)?;
    let name = folder.file_name().unwrap_or_default().to_string_lossy();
    let mut lines = Vec::new();
    for Picture { file, under, chart } in all(runs)? {
        fs::write(folder.join(file), chart.svg()).map_err(told)?;
        lines.push((under, format!("\n![{}]({name}/{file})\n", chart.title)));
    }
    Ok(lines)
}

fn all(runs: &Runs) -> Result<Vec<Picture>, String> {
    let note = note(runs);
    let (linear, log) = (Scale::Linear, Scale::Log);
    let mut all = vec![
        by_rows(runs, "check_blocks.svg", BLOCKS, "blocks", (log, linear))?,
        by_rows(
            runs,
            "check_short_files.svg",
            SHORT,
            "files",
            (linear, linear),
        )?,
        by_rows(
            runs,
            "check_long_files.svg",
            LONG,
            "files",
            (linear, linear),
        )?,
        entries(runs)?,
        families(runs)?,
    ];
    for picture in &mut all {
        picture.chart.note.clone_from(&note);
    }
    Ok(all)
}

/// What lines and bands are.
fn note(runs: &Runs) -> String {
    let Runs { idle, loaded, .. } = runs;
    format!("Line: median of {idle} idle runs. Band: lowest to highest of these and {loaded} loaded ones.")
}

fn section<'a>(runs: &'a Runs, title: &str) -> Result<&'a Section, String> {
    let section = runs.section(title);
    section.ok_or_else(|| format!("the runs have no section \"{title}\""))
}

fn point(x: f64, times: &Numbers) -> Point {
    let all = times.idle.iter().chain(&times.loaded).copied();
    Point {
        x,
        time: median(&times.idle),
        spread: spread(all),
    }
}

/// The number that a row's title is.
fn number(title: &str) -> Result<f64, String> {
    let number = title.replace(',', "").parse();
    number.map_err(|_| format!("not a number: {title}"))
}

/// A lane of a section whose rows are numbers.
fn lane(section: &Section, lane: usize, name: &str) -> Result<Series, String> {
    let rows = section.rows.iter();
    let points = rows.map(|row| Ok(point(number(&row.title)?, &row.times[lane])));
    Ok(Series {
        name: name.to_owned(),
        points: points.collect::<Result<_, String>>()?,
        thick: false,
    })
}

/// All lanes of a section whose rows are numbers.
fn by_rows(
    runs: &Runs,
    file: &'static str,
    title: &str,
    counted: &str,
    scales: (Scale, Scale),
) -> Result<Picture, String> {
    let section = section(runs, title)?;
    let lanes = section.lanes.iter().enumerate();
    let series = lanes.map(|(number, name)| lane(section, number, name));
    let rows = section.rows.iter();
    let ticks = rows.map(|row| Ok((number(&row.title)?, row.title.clone())));
    Ok(Picture {
        file,
        under: title.to_owned(),
        chart: Chart {
            title: title.to_owned(),
            note: String::new(),
            counted: counted.to_owned(),
            scales,
            ticks: ticks.collect::<Result<_, String>>()?,
            series: series.collect::<Result<_, _>>()?,
            limits: Vec::new(),
        },
    })
}

/// The check of one romfs list, with hard links too.
fn entries(runs: &Runs) -> Result<Picture, String> {
    let scales = (Scale::Log, Scale::Log);
    let mut picture = by_rows(runs, "romfs_entries.svg", ENTRIES, "entries", scales)?;
    let links = lane(section(runs, LINKS)?, 0, "proved, a quarter hard links")?;
    picture.chart.series.push(links);
    picture.under = LINKS.to_owned();
    Ok(picture)
}

/// The check of the romfs families, beside the plain list that is full of headers.
fn families(runs: &Runs) -> Result<Picture, String> {
    let sections = LENGTHS.map(|(words, _)| families_title(words));
    let under = sections[LENGTHS.len() - 1].clone();
    let sections = sections.iter().map(|title| section(runs, title));
    let sections: Vec<&Section> = sections.collect::<Result<_, _>>()?;
    let mut series = Vec::new();
    for family in FAMILIES {
        series.push(by_length(&sections, family.title, 0)?);
    }
    let mut plain = by_length(&sections, FAMILIES[0].title, 1)?;
    plain.name = "plain list".to_owned();
    plain.thick = true;
    let limits = vec![limit(&plain, 2, 4.0), limit(&plain, 4, 40.0)];
    series.push(plain);
    Ok(Picture {
        file: "romfs_families.svg",
        under,
        chart: Chart {
            title: "romfs: check by the length of the image and by what its links lead to"
                .to_owned(),
            note: String::new(),
            counted: "length of the image".to_owned(),
            scales: (Scale::Log, Scale::Log),
            ticks: LENGTHS
                .map(|(words, bytes)| (bytes as f64, words.to_owned()))
                .into(),
            series,
            limits,
        },
    })
}

/// A lane of the row of a title, one section for each length.
fn by_length(sections: &[&Section], title: &str, lane: usize) -> Result<Series, String> {
    let mut points = Vec::new();
    for (section, (_, bytes)) in sections.iter().zip(LENGTHS) {
        let row = section.rows.iter().find(|row| row.title == title);
        let row = row.ok_or_else(|| format!("{}: no row \"{title}\"", section.title))?;
        points.push(point(bytes as f64, &row.times[lane]));
    }
    Ok(Series {
        name: title.to_owned(),
        points,
        thick: false,
    })
}

/// So many times a point of a series.
fn limit(series: &Series, index: usize, times: f64) -> Limit {
    let Point { x, time, .. } = series.points[index];
    Limit {
        x,
        time: time * times,
        name: format!("{times} × plain list"),
    }
}

#[cfg(test)]
mod tests;
