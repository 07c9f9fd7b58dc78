//! Links the static library. FLOWGOAL_LIBRARY names the folder that it stands in; without it, that is where `tools/library`
//! writes it.
use std::{env, path::PathBuf};

fn main() {
    let package = env::var_os("CARGO_MANIFEST_DIR").expect("cargo sets CARGO_MANIFEST_DIR");
    let written = PathBuf::from(package).join("../../target/staticlib");
    let folder = env::var_os("FLOWGOAL_LIBRARY").map_or(written, PathBuf::from);
    let archive = folder.join("libflowgoal.a");
    assert!(archive.is_file(), "{} is not there: `tools/library` makes it", archive.display());
    println!("cargo:rustc-link-search=native={}", folder.display());
    println!("cargo:rustc-link-lib=static:-bundle=flowgoal");
    println!("cargo:rerun-if-env-changed=FLOWGOAL_LIBRARY");
    println!("cargo:rerun-if-changed={}", archive.display());
}
