//! Links the proved archives: from build/lib of the repository, or from the folder (an absolute path) that
//! CRONDELITH_LIB names.

use std::env;
use std::path::{Path, PathBuf};

const FOLDER_VARIABLE: &str = "CRONDELITH_LIB";
const ARCHIVES: [&str; 4] = ["svsc", "svsc_frames", "crondelith", "crondelith_reasons"];

fn main() {
    println!("cargo::rerun-if-env-changed={FOLDER_VARIABLE}");
    let folder = env::var_os(FOLDER_VARIABLE).map_or_else(built_here, PathBuf::from);
    println!("cargo::rustc-link-search=native={}", folder.display());
    for name in ARCHIVES {
        link(&folder, name);
    }
}

/// Links an archive, whose path the crate then finds in CRONDELITH_LINKED_ and the name.
fn link(folder: &Path, name: &str) {
    let archive = folder.join(format!("lib{name}.a"));
    println!("cargo::rerun-if-changed={}", archive.display());
    if !archive.is_file() {
        println!("cargo::error=no {}: host/build-archives builds it", archive.display());
        return;
    }
    println!("cargo::rustc-link-lib=static={name}");
    println!("cargo::rustc-env=CRONDELITH_LINKED_{}={}", name.to_uppercase(), archive.display());
}

/// This crate is host/engine of the repository.
fn built_here() -> PathBuf {
    let crate_folder = env::var("CARGO_MANIFEST_DIR").expect("cargo sets it");
    let repository = Path::new(&crate_folder).ancestors().nth(2);
    repository.expect("two folders up").join("build/lib")
}
