//! Says where libgakyhera.a is: in the folder that GAKYHERA_LIB_DIR names, or in out/ of the repository, where
//! tools/library builds it.
use std::env;
use std::path::{Path, PathBuf};

fn main() {
    println!("cargo:rerun-if-env-changed=GAKYHERA_LIB_DIR");
    let built = || Path::new(env!("CARGO_MANIFEST_DIR")).join("../../out");
    let folder = env::var_os("GAKYHERA_LIB_DIR").map_or_else(built, PathBuf::from);
    println!("cargo:rustc-link-search=native={}", folder.display());
    println!("cargo:rustc-link-lib=static=gakyhera");
    println!("cargo:rerun-if-changed={}", folder.join("libgakyhera.a").display());
}
