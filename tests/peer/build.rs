//! Tells the linker where the product's static library lies. Only the comparison test and the benchmark name
//! that library, so the peer itself builds without it.

use std::env;
use std::path::{Path, PathBuf};

fn main() {
    let own = env::var_os("CARGO_MANIFEST_DIR").expect("cargo sets CARGO_MANIFEST_DIR");
    let folder = match env::var_os("PARK_LIB_DIR") {
        Some(folder) => PathBuf::from(folder),
        None => Path::new(&own).join("../../target/staticlib"),
    };
    println!("cargo:rustc-link-search=native={}", folder.display());
    println!("cargo:rerun-if-changed={}", folder.join("libentry.a").display());
    println!("cargo:rerun-if-changed=build.rs");
    println!("cargo:rerun-if-env-changed=PARK_LIB_DIR");
}
