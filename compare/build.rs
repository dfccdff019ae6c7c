//! Links libport.a from the folder that BELAGUNTHI_ARCHIVE names.

use std::path::Path;

/// Says where the archive is, or why not.
fn main() {
    println!("cargo:rerun-if-env-changed=BELAGUNTHI_ARCHIVE");
    let folder =
        std::env::var("BELAGUNTHI_ARCHIVE").expect("set BELAGUNTHI_ARCHIVE to the folder of libport.a");
    let folder = std::fs::canonicalize(&folder).unwrap_or_else(|_| panic!("no folder {folder}"));
    let archive = Path::new(&folder).join("libport.a");
    if !archive.is_file() {
        panic!("there is no {}", archive.display());
    }
    println!("cargo:rerun-if-changed={}", archive.display());
    println!("cargo:rustc-link-search=native={}", folder.display());
    println!("cargo:rustc-link-lib=static=port");
}
