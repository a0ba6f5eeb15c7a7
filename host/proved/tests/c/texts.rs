//! Every refusal has a text of its own.

use crate::compiler::{compilers, folder, told, HEADERS, STRICT};
use crate::numbers::constants;
use std::collections::BTreeSet;

/// A number that no header has.
const NONE: &str = "unknown refusal";

/// What the text function of a header says of the numbers 0 to 63.
fn texts(test: &str, function: &str) -> Vec<String> {
    let print = format!("for (n = 0; n < 64; n++)\n        puts({function}(n));");
    let main = format!("int main(void)\n{{\n    uint32_t n;\n\n    {print}\n    return 0;\n}}\n");
    let source = format!("#include <stdio.h>\n{HEADERS}{main}");
    let printed = told(
        "gcc",
        &format!("-std=c99 {STRICT}"),
        &folder(&format!("{test}_{function}")),
        &source,
    );
    let texts: Vec<String> = printed.lines().map(str::to_string).collect();
    assert_eq!(texts.len(), 64, "one line each");
    texts
}

/// Fails unless these numbers and no others have a text, no two the same.
fn named(texts: &[String], numbers: impl Iterator<Item = u32>) {
    let numbers: BTreeSet<usize> = numbers.map(|number| number as usize).collect();
    let known: BTreeSet<usize> = (0..64).filter(|&n| texts[n] != NONE).collect();
    assert_eq!(known, numbers);
    let different: BTreeSet<&String> = known.iter().map(|&n| &texts[n]).collect();
    assert_eq!(different.len(), numbers.len());
    assert!(different
        .iter()
        .all(|text| text.len() > 5 && text.is_ascii()));
}

#[test]
fn of_tfs() {
    let refusals = constants("tfs.h", "tfs_refusal");
    named(&texts("of_tfs", "tfs_refusal_text"), refusals.into_values());
}

#[test]
fn of_romfs() {
    let refusals = constants("romfs.h", "romfs_refusal");
    named(
        &texts("of_romfs", "romfs_refusal_text"),
        refusals.into_values(),
    );
}

#[test]
fn of_the_timing_file_with_those_of_tfs() {
    let own = constants("timing.h", "timing_refusal");
    let refusals = constants("tfs.h", "tfs_refusal");
    let (tfs, timing) = (
        texts("of_the_timing_file_with_those_of_tfs", "tfs_refusal_text"),
        texts(
            "of_the_timing_file_with_those_of_tfs",
            "timing_refusal_text",
        ),
    );
    let shared = refusals
        .values()
        .filter(|&&n| n != refusals["TFS_NO_SUCH_NAME"]);
    assert!(shared
        .into_iter()
        .all(|&n| timing[n as usize] == tfs[n as usize]));
    named(&timing, refusals.into_values().chain(own.into_values()));
}

#[test]
fn of_traces_with_those_of_tfs() {
    let refusals = constants("tfs.h", "tfs_refusal");
    let (tfs, trace) = (
        texts("of_traces_with_those_of_tfs", "tfs_refusal_text"),
        texts("of_traces_with_those_of_tfs", "tfs_trace_refusal_text"),
    );
    assert!(refusals
        .values()
        .all(|&n| trace[n as usize] == tfs[n as usize]));
    named(&trace, refusals.into_values().chain([33]));
}

#[test]
fn of_the_largest_numbers() {
    let calls = [
        "tfs_refusal_text(0xFFFFFFFFu)",
        "romfs_refusal_text(0xFFFFFFFFu)",
        "timing_refusal_text(0xFFFFFFFFu)",
        "tfs_trace_refusal_text(0xFFFFFFFFu)",
        "tfs_trace_refusal_text((uint64_t)1 << 32)",
        "tfs_trace_refusal_text(33 | (uint64_t)1 << 32)",
    ];
    let puts = calls.map(|call| format!("    puts({call});\n")).concat();
    let main = format!("int main(void)\n{{\n{puts}    return 0;\n}}\n");
    let source = format!("#include <stdio.h>\n{HEADERS}{main}");
    let folder = folder("largest");
    for compiler in compilers().concat() {
        assert_eq!(
            told(compiler, "", &folder, &source),
            format!("{NONE}\n").repeat(6)
        );
    }
}
