//! Finds the static library of the proved services and has it linked.

use std::path::PathBuf;

fn main() {
    println!("cargo:rerun-if-env-changed=CITRONHELM_LIB");
    let usual = concat!(env!("CARGO_MANIFEST_DIR"), "/../../crates/citronhelm/out");
    let folder = std::env::var_os("CITRONHELM_LIB").map_or(PathBuf::from(usual), PathBuf::from);
    let library = folder.join("libcitronhelm.a");
    println!("cargo:rerun-if-changed={}", library.display());
    if !library.is_file() {
        eprintln!("Citronhelm's library is not there: {}", library.display());
        eprintln!(
            "Run `rt lib` in the repository's folder crates/citronhelm, or set CITRONHELM_LIB to the folder of libcitronhelm.a."
        );
        std::process::exit(1);
    }
    println!("cargo:rustc-link-search=native={}", folder.display());
    println!("cargo:rustc-link-lib=static=citronhelm");
}
