// The archive is looked for in GULVANE_LIB_DIR, or where `rt lib` in crates/gulvane puts it.
use std::env;
use std::path::PathBuf;

fn main() {
    println!("cargo:rerun-if-env-changed=GULVANE_LIB_DIR");
    let dir = env::var_os("GULVANE_LIB_DIR").map(PathBuf::from).unwrap_or_else(|| {
        PathBuf::from(env::var_os("CARGO_MANIFEST_DIR").expect("cargo sets it")).join("../../crates/gulvane/out")
    });
    let archive = dir.join("libgulvane.a");
    if !archive.is_file() {
        // Only a warning, since `cargo doc` and `cargo check` do without it.
        println!("cargo:warning={} is missing: run `rt lib` in crates/gulvane, or name its folder in GULVANE_LIB_DIR", archive.display());
    }
    println!("cargo:rustc-link-search=native={}", dir.display());
    println!("cargo:rerun-if-changed={}", archive.display());
}
