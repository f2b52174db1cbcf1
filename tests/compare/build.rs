//! Links libsrec.a from the repository's target, or from SREC_LIB_DIR.

use std::env;
use std::path::{Path, PathBuf};
use std::process::ExitCode;

fn main() -> ExitCode {
    println!("cargo:rerun-if-env-changed=SREC_LIB_DIR");
    let package = env::var_os("CARGO_MANIFEST_DIR").unwrap_or_default();
    let usual = Path::new(&package).join("../../target");
    let folder = env::var_os("SREC_LIB_DIR").map_or(usual, PathBuf::from);
    let archive = folder.join("libsrec.a");
    // A file that is missing is asked for again at each build.
    println!("cargo:rerun-if-changed={}", archive.display());
    if !archive.is_file() {
        eprintln!("{} is missing.", archive.display());
        eprintln!(
            "Run `make`, or set SREC_LIB_DIR to the absolute path of a folder that has libsrec.a."
        );
        return ExitCode::FAILURE;
    }
    println!("cargo:rustc-link-search=native={}", folder.display());
    println!("cargo:rustc-link-lib=static=srec");
    ExitCode::SUCCESS
}
