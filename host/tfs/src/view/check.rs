//! The check of one volume or of several, with all faults if they are asked for.

use super::{members, View};
use crate::failure::{Failure, Outcome};
use crate::files;
use crate::json::{Members, Value};
use crate::report::{self, Form};
use crate::survey::{Fault, Survey};
use crate::words;
use std::os::unix::ffi::OsStrExt;
use std::path::Path;

/// Checks volumes, each by itself; the highest status is that of the command.
pub fn check(paths: &[&Path], all: bool, form: Form) -> Outcome {
    let named = paths.len() > 1;
    let mut checks = Vec::new();
    for path in paths {
        let check = Check::of(path, all);
        if let Err(failure) = &check.verdict {
            report::tell(failure);
        }
        if !form.is_json() {
            files::print(check.text(named).as_bytes())?;
        }
        checks.push(check);
    }
    if form.is_json() {
        files::print(&form.told(String::new, || objects(&checks)))?;
    }
    let failures = checks.into_iter().filter_map(|check| check.verdict.err());
    let worst = failures.map(|failure| failure.status()).max();
    worst.map_or(Ok(Vec::new()), |status| Err(Failure::Told(status)))
}

/// What a program is told: of several images a list, and the worst failure beside it.
fn objects(checks: &[Check<'_>]) -> Members {
    if let [only] = checks {
        return only.members();
    }
    let image = |check: &Check<'_>| {
        let path = words::name(check.path.as_os_str().as_bytes());
        let mut members: Members = vec![("image", path.into())];
        members.extend(check.members());
        Value::from(members)
    };
    let mut members: Members = vec![("images", checks.iter().map(image).collect())];
    let failures = checks
        .iter()
        .filter_map(|check| check.verdict.as_ref().err());
    let first_worst = failures.rev().max_by_key(|failure| failure.status());
    members.extend(first_worst.map(|failure| ("error", report::error(failure).into())));
    members
}

/// An image with the verdict on it.
struct Check<'a> {
    path: &'a Path,
    verdict: Result<(), Failure>,
    /// The verdict in words and this tool's reading, where all faults are asked for.
    all: Option<(String, Survey)>,
}

impl<'a> Check<'a> {
    fn of(path: &'a Path, all: bool) -> Self {
        let (verdict, all) = match View::of(path) {
            Err(failure) => (Err(failure), None),
            Ok(view) => {
                let all = all.then(|| (view.verdict(), view.survey()));
                let verdict = view.refused.map_or(Ok(()), |(_, failure)| Err(failure));
                (verdict, all)
            }
        };
        Self { path, verdict, all }
    }

    /// The lines on standard output, with the image's name where there are several.
    fn text(&self, named: bool) -> String {
        let name = match named {
            true => format!("{}: ", self.path.display()).replace(char::is_control, "?"),
            false => String::new(),
        };
        match &self.all {
            Some((verdict, survey)) => {
                let (note, faults) = (survey.note(), folded(&survey.faults()));
                format!("{name}{verdict}\n{name}{note}\n{faults}")
            }
            None if self.verdict.is_ok() => format!("{name}consistent\n"),
            None => String::new(),
        }
    }

    fn members(&self) -> Members {
        let all = self.all.as_ref();
        let faults = all.map(|(_, survey)| survey.faults().iter().map(members).collect());
        let verdict = match &self.verdict {
            Ok(()) => ("consistent", true.into()),
            Err(failure) => ("error", report::error(failure).into()),
        };
        let faults = faults.map(|faults| ("faults", faults));
        faults.into_iter().chain([verdict]).collect()
    }
}

/// A line for each fault; one for the same fault at successive blocks.
fn folded(faults: &[Fault]) -> String {
    let runs = faults.chunk_by(|one, next| {
        let follows = (one.number, one.place + 1) == (next.number, next.place);
        follows && of_block(one).is_some() && of_block(one) == of_block(next)
    });
    runs.map(line).collect()
}

/// What is said of the block at fault, where a cause begins with it.
fn of_block(fault: &Fault) -> Option<&str> {
    let block = format!("block {} ", fault.place);
    fault.cause.strip_prefix(&block)
}

fn line(run: &[Fault]) -> String {
    let [first, .., last] = run else {
        let causes = run.iter();
        let lines = causes.map(|fault| format!("  rule {}: {}\n", fault.number, fault.cause));
        return lines.collect();
    };
    let (number, from, to) = (first.number, first.place, last.place);
    let cause = of_block(first).unwrap_or(&first.cause);
    format!("  rule {number}: blocks {from} to {to}: each {cause}\n")
}
