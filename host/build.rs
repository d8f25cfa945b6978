//! Finds or makes the static library of the proved functions.
//!
//! RULEPACK_LIB names a folder that holds libentries.a. Where it is not given, `bin/staticlib entries` is asked for it:
//! it proves what has changed since the last time and writes target/staticlib of the checkout.

use std::path::{Path, PathBuf};
use std::process::Command;

/// Has the library made again where the text of a crate has changed. What a check leaves beside the text, in out/, doesn't count.
fn watch(repository: &Path) {
    println!("cargo::rerun-if-changed={}", repository.join("crates.txt").display());
    for each in std::fs::read_dir(repository.join("crates")).expect("crates") {
        let each = each.expect("crates").path();
        for part in ["src", "specs", "proofs"].map(|part| each.join(part)).iter().filter(|part| part.exists()) {
            println!("cargo::rerun-if-changed={}", part.display());
        }
    }
}

fn made(repository: &Path) -> PathBuf {
    watch(repository);
    let status = Command::new(repository.join("bin/staticlib")).arg("entries").status();
    match status {
        Ok(status) if status.success() => repository.join("target/staticlib"),
        Ok(status) => panic!(
            "`bin/staticlib entries` failed ({status}): put the toolchain's rt on the PATH, or set RULEPACK_LIB to a folder with libentries.a"
        ),
        Err(e) => panic!("`bin/staticlib entries` could not be run: {e}"),
    }
}

fn main() {
    println!("cargo::rerun-if-env-changed=RULEPACK_LIB");
    println!("cargo::rerun-if-changed=build.rs");
    let repository = Path::new(env!("CARGO_MANIFEST_DIR")).parent().expect("host stands in the checkout");
    let folder = match std::env::var_os("RULEPACK_LIB") {
        Some(folder) => PathBuf::from(folder),
        None => made(repository),
    };
    println!("cargo::rerun-if-changed={}", folder.join("libentries.a").display());
    println!("cargo::rustc-link-search=native={}", folder.display());
    println!("cargo::rustc-link-lib=static=entries");
    // Dependents link other libraries of the checkout from the same folder.
    println!("cargo::metadata=folder={}", folder.display());
}
