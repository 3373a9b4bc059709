//! Hands the library's archive to the linker, for the program `compare` alone.

use std::env;
use std::path::Path;

const FOLDER: &str = "RAKHUBOLE_ARCHIVE_DIR";
const ARCHIVE: &str = "librakhubole.a";

fn main() {
    println!("cargo:rerun-if-changed=build.rs");
    println!("cargo:rerun-if-env-changed={FOLDER}");
    if let Ok(folder) = env::var(FOLDER) {
        let archive = Path::new(&folder).join(ARCHIVE);
        println!("cargo:rerun-if-changed={}", archive.display());
        println!("cargo:rustc-link-arg-bin=compare={}", archive.display());
    }
}
