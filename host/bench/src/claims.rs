//! What the report claims, and whether it holds in every run.

use crate::runs::{Row, Runs, Section};

/// A limit on how many times as long the proved request takes as a lane beside it.
struct Claim {
    words: &'static str,
    most: f64,
    lane: &'static str,
    /// Sections that must have a row of it.
    sections: &'static [&'static str],
    /// Whether it is about a row, by the titles of its section and its own.
    about: fn(&str, &str) -> bool,
}

const REQUESTS: &str = "TFS: a volume of 2 MiB";
const LARGEST: &str = "TFS: read and write of 65,024 bytes";
const LARGEST_LESS: &str = "TFS: read and write of 65,024 bytes, less the check";
const SHORT: &str = "TFS: read and write of 64 bytes";
const FEW: &str = "TFS: read and write of few bytes, in a volume of 2 MiB with one file";
const STORES: &str =
    "TFS: the k-th store of files of 65,024 bytes, in a volume of 2 MiB with one file";
const MENDS: &str = "TFS: mend of a volume of 2 MiB, by its map";
const TIMING: &str = "Timing file: a volume of 64 KiB with seven other files";
const REPLAYS: &str = "Traces: replay on a volume of 2 MiB";
const ROMFS_1: &str = "romfs: check of images of 1 MiB";
const ROMFS_16: &str = "romfs: check of images of 16 MiB";

const CLAIMS: [Claim; 12] = [
    Claim {
        words: "A check of 25 largest files takes at most 0.70 of the reference's time",
        most: 0.70,
        lane: "reference",
        sections: &[REQUESTS],
        about: |section, row| section == REQUESTS && row == "check, 25 largest files",
    },
    Claim {
        words: "A check, free bytes, a list, a create with its remove: at most 1.00 of the reference",
        most: 1.00,
        lane: "reference",
        sections: &[REQUESTS],
        about: |section, _| section == REQUESTS || section.starts_with("TFS: check of "),
    },
    Claim {
        words: "A create and a remove of 65,024 bytes: at most 1.00 of the reference",
        most: 1.00,
        lane: "reference",
        sections: &[REQUESTS],
        about: |section, row| {
            section == REQUESTS && row.starts_with("create and remove 65,024 bytes")
        },
    },
    Claim {
        words: "A read or write of 65,024 bytes, with one file also less the check: at most 1.00 of the reference",
        most: 1.00,
        lane: "reference",
        sections: &[LARGEST, LARGEST_LESS],
        about: |section, row| section == LARGEST || section == LARGEST_LESS && !row.ends_with(" files"),
    },
    Claim {
        words: "A read or write of 65,024 bytes in blocks one after another, less the check: at most 1.10 of `memcpy`",
        most: 1.10,
        lane: "copy",
        sections: &[LARGEST_LESS],
        about: |section, row| section == LARGEST_LESS && !row.ends_with("scattered blocks"),
    },
    Claim {
        words: "A read or write of few bytes: at most 1.00 of the reference",
        most: 1.00,
        lane: "reference",
        sections: &[SHORT, FEW],
        about: |section, _| section == SHORT || section == FEW,
    },
    Claim {
        words: "A store fetched: at most 1.00 of the reference",
        most: 1.00,
        lane: "reference",
        sections: &[STORES],
        about: |section, _| section == STORES,
    },
    Claim {
        words: "A mend: at most 1.00 of the reference",
        most: 1.00,
        lane: "reference",
        sections: &[MENDS],
        about: |section, _| section == MENDS,
    },
    Claim {
        words: "A request on the timing file: at most 1.00 of the reference",
        most: 1.00,
        lane: "reference",
        sections: &[TIMING],
        about: |section, _| section == TIMING,
    },
    Claim {
        words: "A replay: at most 1.00 of the reference",
        most: 1.00,
        lane: "reference",
        sections: &[REPLAYS],
        about: |section, _| section == REPLAYS,
    },
    Claim {
        words: "A check of each romfs family at 1 MiB: at most 4 times its plain list",
        most: 4.0,
        lane: "plain list",
        sections: &[ROMFS_1],
        about: |section, _| section == ROMFS_1,
    },
    Claim {
        words: "A check of each romfs family at 16 MiB: at most 40 times its plain list",
        most: 40.0,
        lane: "plain list",
        sections: &[ROMFS_16],
        about: |section, _| section == ROMFS_16,
    },
];

/// A row that a claim is about, with the ratios of all runs, the idle ones first.
struct Judged<'a> {
    section: &'a Section,
    row: &'a Row,
    ratios: Vec<f64>,
}

impl Judged<'_> {
    fn worst(&self) -> f64 {
        self.ratios.iter().copied().fold(0.0, f64::max)
    }
}

/// The claims as a table.
pub fn table(runs: &Runs) -> String {
    let rows: String = CLAIMS.iter().map(|claim| line(claim, runs)).collect();
    format!("| claim | worst | |\n|---|---:|---|\n{rows}")
}

fn line(claim: &Claim, runs: &Runs) -> String {
    let (worst, verdict) = verdict(claim, runs);
    format!("| {} | {worst} | {verdict} |\n", claim.words)
}

/// The worst value, and whether the claim holds.
fn verdict(claim: &Claim, runs: &Runs) -> (String, String) {
    let judged = match judged(claim, runs) {
        Ok(judged) => judged,
        Err(cause) => return ("-".to_owned(), format!("**does not hold**: {cause}")),
    };
    let measured = |section: &&&str| judged.iter().any(|row| row.section.title == **section);
    let missing = claim.sections.iter().find(|section| !measured(section));
    let worst = judged
        .iter()
        .max_by(|one, other| one.worst().total_cmp(&other.worst()));
    let (None, Some(worst)) = (missing, worst) else {
        let cause = "**does not hold**: nothing of it is measured";
        let of = missing.map(|section| format!(", in \"{section}\""));
        return ("-".to_owned(), cause.to_owned() + &of.unwrap_or_default());
    };
    let all = runs.idle + runs.loaded;
    let over = |run: &usize| judged.iter().any(|row| row.ratios[*run] > claim.most);
    let told = match (0..all).filter(over).count() {
        0 => format!("holds in all {all} runs"),
        failed => format!(
            "**does not hold** in {failed} of {all} runs; worst: {}, in \"{}\"",
            worst.row.title, worst.section.title
        ),
    };
    (format!("{:.3}", worst.worst()), told)
}

/// All rows that a claim is about; an error if one of them has no ratio.
fn judged<'a>(claim: &Claim, runs: &'a Runs) -> Result<Vec<Judged<'a>>, String> {
    let about = |(section, row): &(&Section, &Row)| (claim.about)(&section.title, &row.title);
    let judge = |(section, row): (&'a Section, &'a Row)| {
        let lane = section.lanes.iter().position(|lane| lane == claim.lane);
        let ratios = lane.and_then(|lane| row.ratios(lane));
        let none = || format!("no ratio in {}, in \"{}\"", row.title, section.title);
        let ratios = ratios.ok_or_else(none)?;
        Ok(Judged {
            section,
            row,
            ratios: [ratios.idle, ratios.loaded].concat(),
        })
    };
    runs.rows().filter(about).map(judge).collect()
}

#[cfg(test)]
mod tests {
    use super::*;
    use crate::fact::Fact;

    const CLAIM: Claim = Claim {
        words: "half the time",
        most: 0.5,
        lane: "reference",
        sections: &["s"],
        about: |section, row| section == "s" && row != "other",
    };

    /// A run with these times of the proved request beside 100 of the reference.
    fn run(times: [f64; 3]) -> Vec<Fact> {
        let fact = |row: &str, lane: &str, ns| Fact {
            section: "s".to_owned(),
            row: row.to_owned(),
            lane: lane.to_owned(),
            ns,
        };
        let rows = ["one", "two", "other"].into_iter().zip(times);
        rows.flat_map(|(row, time)| [fact(row, "proved", time), fact(row, "reference", 100.0)])
            .collect()
    }

    fn told(idle: &[[f64; 3]], loaded: &[[f64; 3]]) -> (String, String) {
        let idle: Vec<_> = idle.iter().copied().map(run).collect();
        let loaded: Vec<_> = loaded.iter().copied().map(run).collect();
        verdict(&CLAIM, &Runs::of(&idle, &loaded).expect("runs"))
    }

    #[test]
    fn a_claim_holds_up_to_its_limit_and_shows_its_worst_value() {
        let (worst, verdict) = told(&[[40.0, 30.0, 90.0]; 2], &[[40.0, 50.0, 90.0]]);
        assert_eq!((&worst[..], &verdict[..]), ("0.500", "holds in all 3 runs"));
    }

    #[test]
    fn a_claim_over_its_limit_in_one_run_fails_and_says_where() {
        for (idle, loaded) in [(50.1, 40.0), (40.0, 50.1)] {
            let (worst, verdict) = told(&[[10.0; 3], [10.0, idle, 1.0]], &[[10.0, loaded, 1.0]]);
            let expected = "**does not hold** in 1 of 3 runs; worst: two, in \"s\"";
            assert_eq!((&worst[..], &verdict[..]), ("0.501", expected));
        }
    }

    #[test]
    fn a_claim_about_nothing_measured_fails() {
        let nothing = verdict(&CLAIM, &Runs::of(&[Vec::new()], &[]).expect("runs"));
        assert!(nothing.1.starts_with("**does not hold**"), "{nothing:?}");
        let (worst, verdict) = told(&[[0.1, 10.0, 10.0]], &[]);
        let expected = "**does not hold**: no ratio in one, in \"s\"";
        assert_eq!((&worst[..], &verdict[..]), ("-", expected));
    }

    #[test]
    fn a_claim_with_a_section_that_is_not_measured_fails() {
        let claim = Claim {
            sections: &["s", "t"],
            ..CLAIM
        };
        let runs = Runs::of(&[run([10.0; 3])], &[]).expect("runs");
        let expected = "**does not hold**: nothing of it is measured, in \"t\"";
        assert_eq!(verdict(&claim, &runs).1, expected);
    }

    #[test]
    fn a_claim_on_a_difference_needs_only_the_one_of_the_reference() {
        let claim = Claim {
            sections: &["s, less the check"],
            about: |section, _| section == "s, less the check",
            ..CLAIM
        };
        let told = |proved, reference| {
            let mut facts = run([proved, 10.0, 10.0]);
            facts[1].ns = reference;
            for fact in &mut facts {
                fact.section = "s, less the check".to_owned();
            }
            verdict(&claim, &Runs::of(&[facts], &[]).expect("runs")).1
        };
        assert_eq!(told(-0.1, 100.0), "holds in all 1 runs");
        let expected = "**does not hold**: no ratio in one, in \"s, less the check\"";
        assert_eq!(told(-0.1, 0.1), expected);
    }
}
