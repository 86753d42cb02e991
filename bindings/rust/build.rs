//! Links the static library that `.ci/library` makes in the repository, or one for another machine in the folder
//! that THRESHSKIFF_ARCHIVES names.

use std::env;
use std::path::{Path, PathBuf};

/// Where the archive stands, from this package's folder.
const ARCHIVES: &str = "../../target/staticlib";
const VARIABLE: &str = "THRESHSKIFF_ARCHIVES";

fn main() {
    let set = |name: &str| env::var(name).unwrap_or_else(|_| panic!("cargo sets {name}"));
    assert_eq!(set("CARGO_CFG_TARGET_OS"), "linux", "the static library is for Linux alone");
    let folder = env::var_os(VARIABLE).map(PathBuf::from).unwrap_or_else(|| {
        assert_eq!(set("CARGO_CFG_TARGET_ARCH"), "x86_64", "the static library is for x86-64 alone");
        Path::new(&set("CARGO_MANIFEST_DIR")).join(ARCHIVES)
    });
    let archive = folder.join("libthreshskiff.a");
    println!("cargo::rerun-if-changed=build.rs");
    println!("cargo::rerun-if-env-changed={VARIABLE}");
    println!("cargo::rerun-if-changed={}", archive.display());
    if !archive.is_file() {
        println!("cargo::warning={} is not there: run `.ci/library` in the repository", archive.display());
    }
    println!("cargo::rustc-link-search=native={}", folder.display());
    println!("cargo::rustc-link-lib=static=threshskiff");
}
