//! Links libcapi.a, from FCHECK_LIB_DIR or where `rt lib` in crates/capi writes it.

use std::env;
use std::path::{Path, PathBuf};

fn main() {
    let folder = env::var_os("FCHECK_LIB_DIR").map_or_else(
        || Path::new(&env::var_os("CARGO_MANIFEST_DIR").unwrap()).join("../../crates/capi/out"),
        PathBuf::from,
    );
    let archive = folder.join("libcapi.a");
    assert!(
        archive.exists(),
        "{}: not there; `rt lib` in crates/capi writes it",
        archive.display()
    );
    println!("cargo:rerun-if-env-changed=FCHECK_LIB_DIR");
    println!("cargo:rerun-if-changed={}", archive.display());
    println!("cargo:rustc-link-search=native={}", folder.display());
    println!("cargo:rustc-link-lib=static=capi");
}
