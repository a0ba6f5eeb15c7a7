//! The headers compile without a warning, alone and together, in every standard that they name.

use crate::compiler::{compile, compilers, folder, root, HEADERS, STRICT};
use std::fs;
use std::path::Path;

const C: [&str; 6] = ["c89", "gnu89", "c99", "c11", "c17", "gnu17"];
const CPP: [&str; 4] = ["c++98", "c++11", "c++14", "c++17"];

/// Each compiler with each standard of its language, and the flags for both.
fn settings() -> Vec<(&'static str, String)> {
    let c = |name| {
        C.map(|standard| {
            (
                name,
                format!("-std={standard} {STRICT} -Wstrict-prototypes"),
            )
        })
    };
    let cpp =
        |name| CPP.map(|standard| (name, format!("-std={standard} {STRICT} -Wold-style-cast")));
    let of = |[one, other]: [&'static str; 2]| c(one).into_iter().chain(cpp(other));
    compilers().into_iter().flat_map(of).collect()
}

/// Every header gives the version.
const VERSION: &str = "extern const char version[];\nconst char version[] = TFS_VERSION;\n";

#[test]
fn each_header_alone_and_twice() {
    let folder = folder("alone");
    for (compiler, flags) in settings() {
        let twice = |line: &str| format!("{line}\n{line}\n{VERSION}");
        let refused = HEADERS.lines().find_map(|line| {
            let answer = compile(compiler, &flags, &folder, &twice(line));
            answer
                .err()
                .map(|messages| format!("{compiler} {flags}: {messages}"))
        });
        assert_eq!(refused, None);
    }
}

/// Uses of what the headers define beside the functions.
const USES: &str = r#"
extern const char *const version;
extern const uint8_t *const none;
extern int use(uint8_t *image, uint8_t *buffer);

const char *const version = TFS_VERSION;
const uint8_t *const none = TFS_NO_BYTES;

int use(uint8_t *image, uint8_t *buffer)
{
    tfs_result made = tfs_format(image, TFS_MIN_IMAGE, TFS_NO_BYTES, 0);
    tfs_result read = tfs_read(image, TFS_MIN_IMAGE, TFS_NO_BYTES, 0, 0, TFS_NO_BUFFER, 0);
    timing_result lid = timing_open_lid_block(image, TFS_MIN_IMAGE, 1, buffer, TFS_BLOCK_SIZE);
    romfs_result found = romfs_find(image, TFS_MIN_IMAGE, ROMFS_ROOT, image, 1);
    const char *one = timing_refusal_text(lid.refusal), *other = tfs_trace_refusal_text(33);

    return made.refusal == TFS_OK && read.refusal != TFS_OK && found.refusal != ROMFS_OK && one != other;
}
"#;

#[test]
fn what_they_define_can_be_used() {
    let folder = folder("used");
    for (compiler, flags) in settings() {
        let answer = compile(compiler, &flags, &folder, &format!("{HEADERS}{USES}"));
        assert_eq!(answer, Ok(()), "{compiler} {flags}");
    }
}

/// Puts the headers into a folder, one of them with another text somewhere.
fn copy_with(folder: &Path, header: &str, [from, to]: [&str; 2]) {
    for name in [
        "romfs.h",
        "tfs.h",
        "tfs_common.h",
        "tfs_trace.h",
        "timing.h",
    ] {
        let text = fs::read_to_string(root().join("include").join(name)).expect("a header");
        let other = if name == header {
            text.replacen(from, to, 1)
        } else {
            text.clone()
        };
        assert_eq!(name == header, other != text);
        fs::write(folder.join(name), other).expect("a copy");
    }
}

/// Fails unless every compiler names the assertion that such a change breaks.
fn refused(test: &str, header: &str, change: [&str; 2], broken: &str) {
    let folder = folder(test);
    copy_with(&folder, header, change);
    for (compiler, flags) in settings() {
        let messages = compile(compiler, &flags, &folder, HEADERS).expect_err(compiler);
        assert!(
            messages.replace(['_', '.'], " ").contains(broken),
            "{compiler} {flags}: {messages}"
        );
    }
}

#[test]
fn another_size_is_an_error() {
    let change = ["values[TIMING_VALUES];", "values[TIMING_VALUES + 2];"];
    refused("another_size", "timing.h", change, "size of timing booted");
}

#[test]
fn another_order_is_an_error() {
    let from =
        "uint32_t used;        /* 1: a file; 0: a free slot, or refused */\n    uint32_t inode;";
    let change = [from, "uint32_t inode, used;"];
    refused("another_order", "tfs.h", change, "tfs slot used");
}
