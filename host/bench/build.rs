//! Links what is timed beside the proved library: a count in C, and where the environment variable BEFORE names an older
//! build of the library by its absolute path, that build and the present one in the same form.
use std::env;
use std::path::{Path, PathBuf};
use std::process::Command;

fn main() {
    let out = PathBuf::from(env::var_os("OUT_DIR").expect("OUT_DIR"));
    println!("cargo:rustc-link-search=native={}", out.display());
    link_count(&out);
    println!("cargo:rustc-check-cfg=cfg(before)");
    println!("cargo:rerun-if-env-changed=BEFORE");
    if let Some(older) = env::var_os("BEFORE").filter(|name| !name.is_empty()) {
        let newer = Path::new(env!("CARGO_MANIFEST_DIR")).join("../../target/staticlib/libtfs_c.a");
        link_build(Path::new(&older), "before", &out);
        link_build(&newer, "now", &out);
        println!("cargo:rustc-cfg=before");
    }
}

/// Compiles the count in C.
fn link_count(out: &Path) {
    println!("cargo:rerun-if-changed=room.c");
    let (object, library) = (out.join("room.o"), out.join("libroom.a"));
    let flags = "-O2 -std=c99 -Wall -Wextra -Werror -pedantic -c room.c -o";
    run(Command::new("gcc").args(flags.split(' ')).arg(&object));
    run(Command::new("ar").arg("crs").args([&library, &object]));
    println!("cargo:rustc-link-lib=static=room");
}

/// Links a build under names with a prefix, and hides what else it has. Each of its functions begins at the start of a
/// page: two builds then do not differ by where the linker happens to put them.
fn link_build(library: &Path, prefix: &str, out: &Path) {
    println!("cargo:rerun-if-changed={}", library.display());
    let mut command = Command::new("objcopy");
    command.arg("--set-section-alignment=.text.*=4096");
    for name in ["tfs_check", "tfs_free_bytes", "tfs_read", "tfs_write"] {
        command.arg(format!("--redefine-sym={name}={prefix}_{name}"));
        command.arg(format!("--keep-global-symbol={prefix}_{name}"));
    }
    run(command.args([library, &out.join(format!("libtfs_{prefix}.a"))]));
    println!("cargo:rustc-link-lib=static=tfs_{prefix}");
}

fn run(command: &mut Command) {
    let status = command.status();
    assert!(status.is_ok_and(|status| status.success()), "{command:?}");
}
