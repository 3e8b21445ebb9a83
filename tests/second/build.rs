//! Links the library under test, unless the program only checks itself.

use std::env;

fn main() {
    println!("cargo:rerun-if-env-changed=MDF3_LIB_DIR");
    println!("cargo:rerun-if-changed=build.rs");
    if env::var_os("CARGO_FEATURE_SELFCHECK").is_some() {
        return;
    }
    let folder = env::var("MDF3_LIB_DIR").unwrap_or_else(|_| {
        panic!("set MDF3_LIB_DIR to the folder of libmdf3.a, or use --features selfcheck")
    });
    println!("cargo:rerun-if-changed={folder}/libmdf3.a");
    println!("cargo:rustc-link-search=native={folder}");
    println!("cargo:rustc-link-lib=static=mdf3");
}
