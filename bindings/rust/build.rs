//! Finds libshrikemuff.a: in the folder that SHRIKEMUFF_LIB_DIR names (from this package, if it is relative), else where `tools/library`
//! leaves it. With no archive a host can be checked and documented, and not linked.
use std::env;
use std::path::PathBuf;

fn main() {
    println!("cargo:rerun-if-env-changed=SHRIKEMUFF_LIB_DIR");
    let package = PathBuf::from(env::var_os("CARGO_MANIFEST_DIR").expect("cargo sets CARGO_MANIFEST_DIR"));
    let dir = package.join(env::var_os("SHRIKEMUFF_LIB_DIR").unwrap_or_else(|| "../../target/host".into()));
    let archive = dir.join("libshrikemuff.a");
    if !archive.is_file() {
        println!(
            "cargo:warning=nothing can be linked: there is no {}. `tools/library` makes it; SHRIKEMUFF_LIB_DIR names another folder",
            archive.display()
        );
    }
    println!("cargo:rerun-if-changed={}", archive.display());
    println!("cargo:rustc-link-search=native={}", dir.display());
    println!("cargo:rustc-link-lib=static:-bundle=shrikemuff");
}
