//! Links the archive of the library, which stands in the folder that NAMBROIT_ARCHIVE names, or where `rt lib` leaves it.
use std::env;
use std::path::PathBuf;

fn main() {
    println!("cargo:rerun-if-env-changed=NAMBROIT_ARCHIVE");
    let here = PathBuf::from(env::var("CARGO_MANIFEST_DIR").expect("cargo names the folder"));
    let folder = env::var("NAMBROIT_ARCHIVE")
        .map(PathBuf::from)
        .unwrap_or_else(|_| here.join("../../crates/csn_c/out"));
    println!("cargo:rustc-link-search=native={}", folder.display());
    println!("cargo:rustc-link-lib=static=csn_c");
    println!(
        "cargo:rerun-if-changed={}",
        folder.join("libcsn_c.a").display()
    );
}
