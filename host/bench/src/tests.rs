use super::*;
use generate::romfs::FAMILIES;
use on_romfs::{families_title, LENGTHS};

/// All that a run measures, in one round; the families in name alone, as their images are large.
fn short_run() -> Runs {
    let (_, measures) = MEASURES.split_last().expect("measures");
    let mut tables: Vec<Table> = measures.iter().flat_map(|measure| measure(1)).collect();
    for (words, _) in LENGTHS {
        let mut table = Table::new(&families_title(words), &["proved", "plain list"]);
        for family in FAMILIES {
            table.row(family.title, &[2e6, 1e6]);
        }
        tables.push(table);
    }
    let facts = tables.into_iter().flat_map(Table::facts).collect();
    Runs::of(&[facts], &[]).expect("no row twice")
}

#[test]
fn what_a_run_measures_has_all_that_is_claimed_and_drawn() {
    let runs = short_run();
    let claims = claims::table(&runs);
    assert!(!claims.contains("nothing of it is measured"), "{claims}");
    let folder = std::env::temp_dir().join(format!("bench-{}", std::process::id()));
    let drawn = pictures::draw(&runs, &folder).expect("pictures");
    let printed = markdown::tables(&runs, &drawn);
    for (_, line) in &drawn {
        assert!(printed.contains(line), "{line}");
        let (_, name) = line.trim().rsplit_once('/').expect("a path");
        assert!(folder.join(name.trim_end_matches(')')).is_file(), "{line}");
    }
    std::fs::remove_dir_all(&folder).expect("removed");
}

#[test]
fn options_have_defaults_and_are_checked() {
    assert_eq!(options(&[]), Some((2000, false)));
    assert_eq!(options(&["--rows"]), Some((2000, true)));
    assert_eq!(options(&["--rounds", "7"]), Some((7, false)));
    assert_eq!(options(&["--rounds", "7", "--rows"]), Some((7, true)));
    for words in [
        &["--rounds"][..],
        &["--rounds", "0"],
        &["--rounds", "x"],
        &["--row"],
        &["--rows", "7"],
        &["--rounds", "7", "7"],
    ] {
        assert_eq!(options(words), None, "{words:?}");
    }
}

#[test]
fn runs_are_read_from_the_files_of_a_folder() {
    let folder = std::env::temp_dir().join(format!("bench-runs-{}", std::process::id()));
    std::fs::create_dir_all(&folder).expect("folder");
    let write = |name: &str, ns: &str| {
        let line = format!("s\tr\tproved\t{ns}\n");
        std::fs::write(folder.join(name), line).expect("written");
    };
    assert!(Runs::read(&folder).is_err_and(|error| error.ends_with("no file idle-*")));
    for (name, ns) in [
        ("idle-2", "2"),
        ("idle-1", "1"),
        ("loaded-1", "3"),
        ("stack", "x"),
    ] {
        write(name, ns);
    }
    let runs = Runs::read(&folder).expect("runs");
    let times = &runs.sections[0].rows[0].times[0];
    assert_eq!(
        (&times.idle[..], &times.loaded[..]),
        (&[1.0, 2.0][..], &[3.0][..])
    );
    write("idle-3", "x");
    assert!(Runs::read(&folder).is_err_and(|error| error.contains("idle-3: ")));
    std::fs::remove_dir_all(&folder).expect("removed");
}
