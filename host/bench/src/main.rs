//! Times requests, and prints what several runs have measured.
//!
//! ```text
//! bench [--rounds R] [--rows]
//! bench --claims RUNS
//! bench --tables RUNS --pictures FOLDER
//! ```
//!
//! The first makes a run and prints its tables in Markdown, or with --rows a line for each time: section, row, lane and
//! nanoseconds with tabs between. Each time is the best of R rounds (2000 unless given, fewer where one lasts long), in which
//! the proved request, the reference and what else is timed beside them take turns; less the check it is a median. The
//! others print the claims and the tables of all runs whose lines are in the files idle-* and loaded-* of a folder, and draw
//! the pictures. Nothing passes or fails by time.

#![deny(unsafe_code)]

mod chart;
mod claims;
mod clock;
mod fact;
mod less_check;
mod linked;
mod markdown;
mod on_romfs;
mod on_room;
mod on_stores;
mod on_tfs;
mod on_timing;
mod on_traces;
mod on_transfers;
mod pictures;
mod race;
mod runs;
mod table;
mod volumes;

use std::path::Path;
use std::process::ExitCode;

use runs::Runs;
use table::Table;

const USAGE: &str = "usage: bench [--rounds R] [--rows]
       bench --claims RUNS
       bench --tables RUNS --pictures FOLDER";

/// All that is measured, in the order of the report.
const MEASURES: &[fn(usize) -> Vec<Table>] = &[
    on_tfs::requests,
    on_transfers::by_volume,
    on_transfers::whole_files,
    on_transfers::few_bytes,
    #[cfg(before)]
    on_transfers::beside_before,
    on_stores::stores,
    on_stores::mends,
    on_timing::requests,
    on_room::free_bytes,
    on_tfs::growth,
    on_traces::replays,
    on_traces::records,
    on_romfs::requests,
    on_romfs::growth,
    on_romfs::families,
];

fn main() -> ExitCode {
    let words: Vec<String> = std::env::args().skip(1).collect();
    let words: Vec<&str> = words.iter().map(String::as_str).collect();
    let done = match words[..] {
        ["--claims", runs] => judge(Path::new(runs)),
        ["--tables", runs, "--pictures", folder] => report(Path::new(runs), Path::new(folder)),
        _ => match options(&words) {
            Some((rounds, rows)) => run(rounds, rows),
            None => {
                eprintln!("{USAGE}");
                return ExitCode::from(2);
            }
        },
    };
    match done {
        Ok(()) => ExitCode::SUCCESS,
        Err(cause) => {
            eprintln!("bench: {cause}");
            ExitCode::FAILURE
        }
    }
}

/// The rounds of a run, and whether its lines are printed as they are.
fn options(words: &[&str]) -> Option<(usize, bool)> {
    let (rounds, rest) = match words {
        ["--rounds", rounds, rest @ ..] => (rounds.parse().ok()?, rest),
        rest => (2000, rest),
    };
    let rows = match rest {
        [] => false,
        ["--rows"] => true,
        _ => return None,
    };
    (rounds > 0).then_some((rounds, rows))
}

/// Makes a run, and prints each table as soon as it is measured.
fn run(rounds: usize, rows: bool) -> Result<(), String> {
    for measure in MEASURES {
        let facts: Vec<_> = measure(rounds).into_iter().flat_map(Table::facts).collect();
        if rows {
            facts.iter().for_each(|fact| println!("{fact}"));
        } else {
            print!("{}", markdown::tables(&Runs::of(&[facts], &[])?, &[]));
        }
    }
    Ok(())
}

/// Prints what holds of the claims in several runs.
fn judge(runs: &Path) -> Result<(), String> {
    print!("{}", claims::table(&Runs::read(runs)?));
    Ok(())
}

/// Prints the tables of several runs, and draws the pictures beside them.
fn report(runs: &Path, folder: &Path) -> Result<(), String> {
    let runs = Runs::read(runs)?;
    let drawn = pictures::draw(&runs, folder)?;
    print!("{}", markdown::tables(&runs, &drawn));
    Ok(())
}

#[cfg(test)]
mod tests;
