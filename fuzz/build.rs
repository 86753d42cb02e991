//! Links libFuzzer, by the path that `fuzz/run` names.

use std::env;

fn main() {
    println!("cargo::rerun-if-env-changed=LIBFUZZER");
    if let Ok(archive) = env::var("LIBFUZZER") {
        // On Arm it also asks for what these have of the C library and of the compiler.
        for word in [archive.as_str(), "-lstdc++", "-lm", "-lgcc", "-lc"] {
            println!("cargo::rustc-link-arg={word}");
        }
    }
}
