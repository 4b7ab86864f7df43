//! Links the proved libraries: those of target/staticlib, or of the folder that DTA_LIBRARY_DIR names.

use std::path::{Path, PathBuf};

const FOLDER: &str = "DTA_LIBRARY_DIR";

fn main() {
    println!("cargo::rerun-if-env-changed={FOLDER}");
    let folder = match std::env::var_os(FOLDER) {
        Some(folder) => PathBuf::from(folder),
        None => Path::new(env!("CARGO_MANIFEST_DIR")).join("../../target/staticlib"),
    };
    println!("cargo::rustc-link-search=native={}", folder.display());
    for name in ["dta", "dta_facts"] {
        let library = folder.join(format!("lib{name}.a"));
        println!("cargo::rerun-if-changed={}", library.display());
        if !library.exists() {
            let library = library.display();
            println!("cargo::error={library} is missing: run `tools/archive.sh {name}` in the repository, or name its folder in {FOLDER}");
            return;
        }
        println!("cargo::rustc-link-lib=static={name}");
    }
}
