//! Links the static libraries that `host/build.sh` makes of `timing_c`, `tfs_trace_c`, `tfs_c` and
//! `romfs_c`, and says which of them are still to be made.
use std::path::Path;

fn main() {
    let folder = Path::new(env!("CARGO_MANIFEST_DIR")).join("../../target/staticlib");
    println!("cargo::rustc-link-search=native={}", folder.display());
    for name in ["timing_c", "tfs_trace_c", "tfs_c", "romfs_c"] {
        let file = format!("lib{name}.a");
        println!("cargo::rerun-if-changed={}/{file}", folder.display());
        if folder.join(&file).is_file() {
            println!("cargo::rustc-link-lib=static={name}");
        } else {
            let make = format!("make it with: host/build.sh {name}");
            println!("cargo::error=target/staticlib/{file} is missing; {make}");
        }
    }
}
