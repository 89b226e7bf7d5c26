//! Finds an archive of proved code and links it: in the folder that
//! HULLPLAITER_LIB_DIR names, else in target/staticlib below the root of the
//! repository, where `./build` leaves it. A part of the build scripts of `card`
//! and `bench`.

use std::path::PathBuf;
use std::process::ExitCode;

const FOLDER_VARIABLE: &str = "HULLPLAITER_LIB_DIR";

/// Links `lib<library>.a`.
pub fn link(library: &str) -> ExitCode {
    println!("cargo:rerun-if-env-changed={FOLDER_VARIABLE}");
    let folder = folder();
    let archive = folder.join(format!("lib{library}.a"));
    println!("cargo:rerun-if-changed={}", archive.display());
    // Builds run in several folders, so a relative name would mean several.
    if !folder.is_absolute() || !archive.is_file() {
        eprintln!("The proved code is not built: there is no {}.", archive.display());
        eprintln!("Run ./build in the root of the repository, then try again.");
        eprintln!("Or set {FOLDER_VARIABLE} to the full path of a folder with lib{library}.a.");
        return ExitCode::FAILURE;
    }
    println!("cargo:rustc-link-search=native={}", folder.display());
    println!("cargo:rustc-link-lib=static={library}");
    ExitCode::SUCCESS
}

fn folder() -> PathBuf {
    if let Some(folder) = std::env::var_os(FOLDER_VARIABLE).filter(|name| !name.is_empty()) {
        return PathBuf::from(folder);
    }
    let package = std::env::var_os("CARGO_MANIFEST_DIR").unwrap_or_default();
    PathBuf::from(package).join("../../target/staticlib")
}
