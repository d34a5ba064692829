//! Links the C library, only when the feature `capi` asks for it.

use std::env;

fn main() {
    println!("cargo:rerun-if-env-changed=CAPI_DIR");
    println!("cargo:rerun-if-changed=build.rs");
    if env::var_os("CARGO_FEATURE_CAPI").is_none() {
        return;
    }
    let dir = env::var("CAPI_DIR").expect("with the feature capi, CAPI_DIR names the directory of libcapi.a");
    println!("cargo:rerun-if-changed={dir}/libcapi.a");
    println!("cargo:rustc-link-search=native={dir}");
    println!("cargo:rustc-link-lib=static=capi");
}
