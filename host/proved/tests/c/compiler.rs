//! Compiles C against the headers, and runs it with the archives.

use std::fs;
use std::path::{Path, PathBuf};
use std::process::{Command, Output};

/// All headers in one source.
pub const HEADERS: &str = "\
#include \"romfs.h\"
#include \"tfs.h\"
#include \"tfs_trace.h\"
#include \"timing.h\"
";

/// The warnings under which the headers are clean, as errors.
pub const STRICT: &str = "-Wall -Wextra -pedantic -Wcast-qual -Wconversion -Wshadow -Wundef \
    -Wwrite-strings -Wredundant-decls -Werror";

/// A compiler of C and the one of C++ beside it.
pub type Pair = [&'static str; 2];

/// The compilers of this machine: gcc, and clang if it is there.
pub fn compilers() -> Vec<Pair> {
    let clang = Command::new("clang++").arg("--version").output().is_ok();
    let pairs = [["gcc", "g++"], ["clang", "clang++"]];
    pairs[..1 + usize::from(clang)].to_vec()
}

/// The folder of the repository.
pub fn root() -> PathBuf {
    Path::new(env!("CARGO_MANIFEST_DIR")).join("../..")
}

/// The archive of a library.
pub fn archive(library: &str) -> PathBuf {
    root().join(format!("target/staticlib/lib{library}.a"))
}

/// The libraries, in the order in which they are linked.
pub const LIBRARIES: [&str; 4] = ["timing_c", "tfs_trace_c", "tfs_c", "romfs_c"];

/// An empty folder for a test, which has this name alone.
pub fn folder(test: &str) -> PathBuf {
    let folder = Path::new(env!("CARGO_TARGET_TMPDIR")).join(test);
    let _ = fs::remove_dir_all(&folder);
    fs::create_dir_all(&folder).expect("a folder");
    folder
}

/// Runs a command.
pub fn run(command: &mut Command) -> Output {
    match command.output() {
        Ok(output) => output,
        Err(error) => panic!("{command:?}: {error}"),
    }
}

/// What a command prints that succeeds.
pub fn printed(command: &mut Command) -> String {
    let output = run(command);
    let messages = String::from_utf8_lossy(&output.stderr);
    assert!(output.status.success(), "{command:?}: {messages}");
    String::from_utf8(output.stdout).expect("text")
}

/// Compiles a source to an object; the compiler's messages where it refuses.
pub fn compile(compiler: &str, flags: &str, folder: &Path, source: &str) -> Result<(), String> {
    let language = if compiler.ends_with("++") { "c++" } else { "c" };
    let file = folder.join("source");
    fs::write(&file, source).expect("a source");
    let mut command = Command::new(compiler);
    command
        .args(["-x", language])
        .args(flags.split_whitespace());
    command.arg("-I").arg(root().join("include"));
    let output = run(command
        .arg("-c")
        .arg(&file)
        .arg("-o")
        .arg(folder.join("object")));
    match output.status.success() {
        true => Ok(()),
        false => Err(String::from_utf8_lossy(&output.stderr).into_owned()),
    }
}

/// What a program prints that is compiled so and linked with the archives.
pub fn told(compiler: &str, flags: &str, folder: &Path, source: &str) -> String {
    if let Err(messages) = compile(compiler, flags, folder, source) {
        panic!("{compiler} {flags}: {messages}");
    }
    let program = folder.join("program");
    let mut command = Command::new(compiler);
    command
        .arg(folder.join("object"))
        .args(LIBRARIES.map(archive));
    printed(command.arg("-o").arg(&program));
    printed(&mut Command::new(program))
}
