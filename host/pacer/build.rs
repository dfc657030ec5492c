//! Links the static library of the proved code, `libcapi.a`.
//!
//! It is looked for in the folder that the environment variable `PACER_LIB_DIR` names, and
//! without one in `target/staticlib` of the repository that holds this workspace.

use std::env;
use std::path::PathBuf;

fn main() {
    println!("cargo:rerun-if-env-changed=PACER_LIB_DIR");
    let folder = match env::var_os("PACER_LIB_DIR") {
        Some(named) => PathBuf::from(named),
        None => {
            let here = env::var_os("CARGO_MANIFEST_DIR").expect("cargo names the package's folder");
            PathBuf::from(here).join("../../target/staticlib")
        }
    };
    let archive = folder.join("libcapi.a");
    println!("cargo:rerun-if-changed={}", archive.display());
    if !archive.is_file() {
        println!(
            "cargo:warning={} is missing: run `tools/build capi`, or name its folder in PACER_LIB_DIR",
            archive.display()
        );
    }
    println!("cargo:rustc-link-search=native={}", folder.display());
    println!("cargo:rustc-link-lib=static=capi");
}
