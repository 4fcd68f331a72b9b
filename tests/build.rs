//! Links the static library of the checked engine, only under feature `native`.
//!
//! `RIVER_LIB_DIR` overrides where it lies; by default that is `../target/staticlib`.

use std::env;
use std::path::Path;

fn main() {
    println!("cargo:rerun-if-env-changed=RIVER_LIB_DIR");
    if env::var_os("CARGO_FEATURE_NATIVE").is_none() {
        return;
    }
    let here = env::var("CARGO_MANIFEST_DIR").unwrap();
    let directory = env::var("RIVER_LIB_DIR").unwrap_or(format!("{here}/../target/staticlib"));
    let library = Path::new(&directory).join("libledger.a");
    println!("cargo:rerun-if-changed={}", library.display());
    println!("cargo:rustc-link-search=native={directory}");
    println!("cargo:rustc-link-lib=static=ledger");
}
