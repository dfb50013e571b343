//! Links the kernel's archive: target/staticlib of the project, or the folder that STEWLATTICE_ARCHIVE_DIR names.
use std::path::PathBuf;

fn main() {
    println!("cargo:rerun-if-env-changed=STEWLATTICE_ARCHIVE_DIR");
    let here = PathBuf::from(std::env::var("CARGO_MANIFEST_DIR").unwrap());
    let folder = std::env::var("STEWLATTICE_ARCHIVE_DIR").map_or(here.join("../../target/staticlib"), PathBuf::from);
    println!("cargo:rerun-if-changed={}", folder.join("libkernel.a").display());
    println!("cargo:rustc-link-search=native={}", folder.display());
    println!("cargo:rustc-link-lib=static=kernel");
}
