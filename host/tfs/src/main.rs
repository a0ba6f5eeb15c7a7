//! A bench tool for TFS volumes, the pump's timing file, traces of requests, and romfs images.
//!
//! The requests are those of the proved library; this program only reads and writes host files.

#![forbid(unsafe_code)]

mod arguments;
mod commands;
mod contents;
mod dump;
mod escapes;
mod extracted;
mod failure;
mod files;
mod image;
mod json;
mod nearest;
mod numbers;
mod progress;
mod report;
mod rom;
mod stores;
mod survey;
mod timing;
mod trace;
mod view;
mod volume;
mod words;

use failure::Failure;
use std::process::ExitCode;

#[global_allocator]
static MEMORY: process::Ending = process::Ending;

fn main() -> ExitCode {
    process::refuse_over_limit();
    let words = std::env::args_os().skip(1).collect();
    match commands::run(words).and_then(|output| files::print(&output)) {
        Ok(()) => ExitCode::SUCCESS,
        // Nobody is left to be told, or all is told.
        Err(failure @ (Failure::Closed | Failure::Told(_))) => ExitCode::from(failure.status()),
        Err(failure) => {
            report::tell(&failure);
            ExitCode::from(failure.status())
        }
    }
}
