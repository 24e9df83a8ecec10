//! Finds the Rust of glam: the folder that the variable GLAM_SRC names, or the documents beside the repository. With the feature
//! `capi`, also the library libcapi.a: in the folder that the variable CAPI names, or where `rt lib` writes it, crates/capi/out.

use std::env;
use std::ffi::OsString;
use std::path::PathBuf;

fn main() {
    let folder = named("GLAM_SRC", "../../shared/docs/src");
    match PathBuf::from(&folder).canonicalize() {
        Ok(found) if found.join("src/f32/vec3.rs").is_file() => println!("cargo::rustc-env=GLAM_SRC={}", found.display()),
        _ => println!("cargo::error=no src/f32/vec3.rs in {}: set GLAM_SRC to the folder of glam", folder.display()),
    }
    if env::var_os("CARGO_FEATURE_CAPI").is_some() {
        find_library();
    }
}

/// The folder that a variable names, or else the usual one.
fn named(variable: &str, usual: &str) -> OsString {
    println!("cargo::rerun-if-env-changed={variable}");
    env::var_os(variable).unwrap_or_else(|| usual.into())
}

fn find_library() {
    let folder = named("CAPI", "../crates/capi/out");
    match PathBuf::from(&folder).canonicalize() {
        Ok(found) if found.join("libcapi.a").is_file() => {
            println!("cargo::rustc-link-search=native={}", found.display());
            println!("cargo::rerun-if-changed={}", found.join("libcapi.a").display());
        }
        _ => println!("cargo::error=no libcapi.a in {}: compare/capi builds it", folder.display()),
    }
}
