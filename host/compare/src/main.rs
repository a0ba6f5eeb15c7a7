//! Compares the proved requests with the reference; see `compare --help`.

#![forbid(unsafe_code)]

use std::process::ExitCode;

use compare::{options, run, sides, Limits};

fn main() -> ExitCode {
    let words: Vec<String> = std::env::args().skip(1).collect();
    if words.iter().any(|word| word == "--help") {
        println!("{}", options::USAGE);
        return ExitCode::SUCCESS;
    }
    let Some(limits) = options::parse(words.into_iter()) else {
        eprintln!("{}", options::USAGE);
        return ExitCode::from(2);
    };
    let (tally, found) = run(limits, [sides::proved, sides::reference]);
    let differences = u32::from(found.is_some());
    println!("seed {}: {tally}; {differences} differences", limits.seed);
    let Some(found) = found else {
        return ExitCode::SUCCESS;
    };
    println!(
        "request {} on image {}: {}",
        found.request, found.image, found.difference
    );
    println!(
        "again: compare --seed {} --image {}{}",
        limits.seed,
        found.image,
        only(&limits)
    );
    ExitCode::FAILURE
}

fn only(limits: &Limits) -> &'static str {
    match (limits.tfs, limits.romfs) {
        (true, false) => " --only tfs",
        (false, true) => " --only romfs",
        _ => "",
    }
}
