//! The options of the program.

use std::time::{Duration, Instant};

use crate::run::Limits;

/// How the program is called.
pub const USAGE: &str = "\
usage: compare [--seed S] [--cases N] [--seconds T] [--image I] [--only tfs|romfs]

  --seed S      what is drawn; the same seed draws the same (default 1)
  --cases N     stops after N requests
  --seconds T   stops after T seconds (default 5, or none with --cases or --image)
  --image I     only the image of this number
  --only X      only requests on TFS volumes and traces, or only on romfs images";

/// Reads the words behind the program's name.
pub fn parse(mut words: impl Iterator<Item = String>) -> Option<Limits> {
    let mut limits = Limits {
        seed: 1,
        first: 0,
        images: u64::MAX,
        requests: u64::MAX,
        until: None,
        tfs: true,
        romfs: true,
    };
    let mut seconds = None;
    while let Some(word) = words.next() {
        let value = words.next()?;
        match &word[..] {
            "--seed" => limits.seed = value.parse().ok()?,
            "--cases" => limits.requests = value.parse().ok()?,
            "--seconds" => seconds = Some(value.parse().ok()?),
            "--image" => (limits.first, limits.images) = (value.parse().ok()?, 1),
            "--only" if value == "tfs" => limits.romfs = false,
            "--only" if value == "romfs" => limits.tfs = false,
            _ => return None,
        }
    }
    let unlimited = limits.requests == u64::MAX && limits.images == u64::MAX;
    let seconds = seconds.or(unlimited.then_some(5));
    limits.until = seconds.map(|seconds| Instant::now() + Duration::from_secs(seconds));
    Some(limits)
}
