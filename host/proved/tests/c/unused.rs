//! Compilers warn of an answer that nobody looks at, and of what overlaps.

use crate::compiler::{compile, compilers, folder, HEADERS, LIBRARIES};
use crate::declared::{functions, Function};

/// A function of C that calls another with arguments of its own, as `statement` has the call.
fn caller(function: &Function, statement: impl Fn(&str) -> String) -> String {
    let numbered = function.parameters.iter().enumerate();
    let parameters: Vec<String> = numbered.map(|(n, of)| format!("{of} a{n}")).collect();
    let arguments: Vec<String> = (0..parameters.len()).map(|n| format!("a{n}")).collect();
    let call = format!("{}({})", function.name, arguments.join(", "));
    let parameters = parameters.join(", ");
    format!(
        "{HEADERS}void caller({parameters});\nvoid caller({parameters}) {{ {} }}\n",
        statement(&call)
    )
}

/// The messages of a compiler, warnings as errors.
fn messages(compiler: &str, test: &str, source: &str) -> String {
    compile(compiler, "-Wall -Wextra -Werror", &folder(test), source)
        .err()
        .unwrap_or_default()
}

/// Each compiler with each function of the headers.
fn pairs() -> impl Iterator<Item = (&'static str, Function)> {
    let all = || LIBRARIES.into_iter().flat_map(functions);
    let compilers = compilers().concat().into_iter();
    compilers.flat_map(move |compiler| all().map(move |function| (compiler, function)))
}

#[test]
fn every_dropped_answer_warns() {
    for (compiler, function) in pairs() {
        let dropped = caller(&function, |call| format!("{call};"));
        let told = messages(compiler, "dropped", &dropped);
        assert!(
            told.contains("unused-result"),
            "{compiler} {function:?}: {told}"
        );
    }
}

#[test]
fn an_answer_that_is_looked_at_does_not() {
    for (compiler, function) in pairs() {
        let answer = &function.answer;
        let kept = caller(&function, |call| format!("{answer} r = {call}; (void)&r;"));
        assert_eq!(
            messages(compiler, "kept", &kept),
            "",
            "{compiler} {function:?}"
        );
    }
}

#[test]
fn gcc_warns_of_a_buffer_that_is_the_image() {
    let calls = [
        "tfs_read(a, 9, name, 1, 0, a, 9)",
        "tfs_write(a, 9, name, 1, 0, a, 9)",
        "tfs_format(a, 9, a, 9)",
        "tfs_create(a, 9, a, 1, 0)",
        "tfs_remove(a, 9, a, 1)",
        "tfs_create_store(a, 9, name, 1, 5, 1, a, 9)",
        "tfs_remove_store(a, 9, name, 1, 1, a, 9)",
        "tfs_write_store(a, 9, name, 1, 0, name, 1, 1, a, 9)",
        "tfs_replay(a, 9, a, 9)",
        "timing_open_lid_block(a, 9, 1, a, 9)",
    ];
    for call in calls {
        let body = format!("{{ return {call}.refusal == 0; }}");
        let function = "int caller(uint8_t *a, const uint8_t *name)";
        let source = format!("{HEADERS}{function};\n{function} {body}\n");
        let told = messages("gcc", "overlap", &source);
        assert!(told.contains("-Werror=restrict"), "{call}: {told}");
    }
}
