//! Finds the archive that `library/build` makes: in the folder `LOWERQ_LIBRARY`, or where it puts it in the repository.

use std::env;
use std::path::PathBuf;

fn main() {
    println!("cargo:rerun-if-env-changed=LOWERQ_LIBRARY");
    let folder = env::var_os("LOWERQ_LIBRARY")
        .map_or_else(|| PathBuf::from(env!("CARGO_MANIFEST_DIR")).join("../out"), PathBuf::from);
    let archive = folder.join("liblowerq.a");
    println!("cargo:rerun-if-changed={}", archive.display());
    assert!(archive.is_file(), "{} isn't there: run library/build", archive.display());
    println!("cargo:rustc-link-search=native={}", folder.display());
    println!("cargo:rustc-link-lib=static=lowerq");
}
