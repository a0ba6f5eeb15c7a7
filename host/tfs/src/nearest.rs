//! The known word that a person may have meant.

use std::ffi::OsStr;

/// The least number of characters of a beginning that is completed.
const BEGINNING: usize = 3;

/// The first known word that is one slip apart from a given one, or else the first that begins with it.
pub fn nearest<'a>(given: &OsStr, known: &[&'a str]) -> Option<&'a str> {
    let given = given.to_str()?.to_lowercase();
    let slip = |word: &&&str| one_slip(&given, word);
    let begun = |word: &&&str| given.len() >= BEGINNING && word.starts_with(&given);
    let found = known.iter().find(slip);
    found.or_else(|| known.iter().find(begun)).copied()
}

/// Whether two words differ by at most one character, changed, left out or added, or by two
/// neighbours that are swapped.
fn one_slip(given: &str, known: &str) -> bool {
    let (given, known): (Vec<char>, Vec<char>) = (given.chars().collect(), known.chars().collect());
    let start = common(given.iter(), known.iter());
    let (given, known) = (&given[start..], &known[start..]);
    let end = common(given.iter().rev(), known.iter().rev());
    match (&given[..given.len() - end], &known[..known.len() - end]) {
        ([a, b], [c, d]) => (a, b) == (d, c),
        (given, known) => given.len() <= 1 && known.len() <= 1,
    }
}

/// How many items two sequences begin with in common.
fn common<'a>(
    left: impl Iterator<Item = &'a char>,
    right: impl Iterator<Item = &'a char>,
) -> usize {
    left.zip(right).take_while(|(l, r)| l == r).count()
}

#[cfg(test)]
mod tests {
    use super::*;

    const KNOWN: [&str; 5] = ["--force", "--in-place", "list", "rom list", "put"];

    fn meant(given: &str) -> Option<&'static str> {
        nearest(OsStr::new(given), &KNOWN)
    }

    #[test]
    fn one_slip_is_forgiven() {
        for given in [
            "--forse", "--froce", "--forc", "--forcee", "-force", "--FORCE",
        ] {
            assert_eq!(meant(given), Some("--force"), "{given}");
        }
        assert_eq!(meant("lsit"), Some("list"));
        assert_eq!(meant("rom lst"), Some("rom list"));
    }

    #[test]
    fn a_beginning_is_completed() {
        assert_eq!(meant("--in"), Some("--in-place"));
        assert_eq!(meant("li"), None);
    }

    #[test]
    fn two_slips_are_not_near() {
        for given in ["", "--", "--forest", "lits!", "mount", "tpu"] {
            assert_eq!(meant(given), None, "{given}");
        }
    }
}
