//! Links the benchmark with libxml2 where the feature is on. The binding links the core, and only the program: the tests of the plain
//! version need neither.

use std::env;

fn main() {
    println!("cargo:rerun-if-changed=build.rs");
    if env::var_os("CARGO_FEATURE_LIBXML2").is_some() {
        println!("cargo:rustc-link-arg-bins=-lxml2");
    }
}
