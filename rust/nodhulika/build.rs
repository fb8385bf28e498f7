//! Finds the archive of the proved library and links it.

use std::env;
use std::path::{Path, PathBuf};
use std::process::ExitCode;

const ARCHIVE: &str = "libnodhulika.a";
const OVERRIDE: &str = "NODHULIKA_LIB_DIR";

/// Where the archive is looked for: where the caller says, else where
/// `tools/build.sh library` puts it, at the top of the repository.
fn folder() -> PathBuf {
    if let Some(folder) = env::var_os(OVERRIDE) {
        return PathBuf::from(folder);
    }
    let package = env::var_os("CARGO_MANIFEST_DIR").unwrap_or_default();
    Path::new(&package).join("../../target/staticlib")
}

fn main() -> ExitCode {
    let folder = folder();
    // The compiler runs in another folder, so a relative path would not do.
    let folder = folder.canonicalize().unwrap_or(folder);
    let archive = folder.join(ARCHIVE);
    println!("cargo:rerun-if-changed=build.rs");
    println!("cargo:rerun-if-env-changed={OVERRIDE}");
    println!("cargo:rerun-if-changed={}", archive.display());
    if !archive.is_file() {
        eprintln!("error: there is no {}", archive.display());
        eprintln!("Run `tools/build.sh library` at the top of the repository, which builds it,");
        eprintln!("or set {OVERRIDE} to the folder that holds {ARCHIVE}, by its whole path.");
        return ExitCode::FAILURE;
    }
    println!("cargo:rustc-link-search=native={}", folder.display());
    println!("cargo:rustc-link-lib=static=nodhulika");
    // For the test that compiles programs in C against the same archive.
    println!("cargo:rustc-env=NODHULIKA_ARCHIVE={}", archive.display());
    ExitCode::SUCCESS
}
