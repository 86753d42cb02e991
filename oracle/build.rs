//! Finds the source module and lets the crate compile it where it stands.
//!
//! Nothing is copied: the file made here holds one `mod` line whose path is that of the module itself.

use std::path::{Path, PathBuf};
use std::{env, fs};

const VARIABLE: &str = "THRESHSKIFF_SOURCE";
const BESIDE_THE_REPOSITORY: &str = "shared/docs/src/src/frontend/safepoints.rs";

fn main() {
    println!("cargo::rerun-if-changed=build.rs");
    println!("cargo::rerun-if-env-changed={VARIABLE}");
    println!("cargo::rustc-check-cfg=cfg(source_module)");
    match source_module() {
        Some(path) => {
            println!("cargo::rerun-if-changed={}", path.display());
            println!("cargo::rustc-cfg=source_module");
            let made = Path::new(&env::var("OUT_DIR").expect("cargo sets OUT_DIR")).join("source_module.rs");
            let line = format!("#[path = {:?}]\n#[allow(dead_code, clippy::all)]\npub(super) mod safepoints;\n", path);
            fs::write(made, line).expect("the folder for made files can be written");
        }
        None => println!(
            "cargo::warning=safepoints.rs was not found (set {VARIABLE} to its path): \
             comparing with the source module will be skipped"
        ),
    }
}

/// The file named by the variable; where that is not set, the one in the folder `shared` beside the repository or above it.
fn source_module() -> Option<PathBuf> {
    if let Some(named) = env::var_os(VARIABLE) {
        return fs::canonicalize(named).ok().filter(|path| path.is_file());
    }
    let package = env::var("CARGO_MANIFEST_DIR").expect("cargo sets CARGO_MANIFEST_DIR");
    let found =
        Path::new(&package).ancestors().map(|folder| folder.join(BESIDE_THE_REPOSITORY)).find(|path| path.is_file());
    if found.is_none() {
        // A path that is not there makes cargo look again at the next build.
        println!("cargo::rerun-if-changed={package}/{BESIDE_THE_REPOSITORY}");
    }
    found
}
