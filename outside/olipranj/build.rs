//! Links the static library that `outside/library` makes. `OLIPRANJ_LIB` names another folder that holds it.

use std::path::PathBuf;
use std::{env, fs};

/// The library's folder, as seen from the crate's. `outside/install` writes another one here.
const LIBRARY: &str = "../target/lib";

fn main() {
    println!("cargo:rerun-if-env-changed=OLIPRANJ_LIB");
    let folder = env::var_os("OLIPRANJ_LIB").map_or_else(
        || PathBuf::from(env::var_os("CARGO_MANIFEST_DIR").expect("cargo names the folder")).join(LIBRARY),
        PathBuf::from,
    );
    let Ok(folder) = fs::canonicalize(&folder) else {
        panic!("{} is missing: run outside/library first", folder.display());
    };
    let archive = folder.join("libolipranj.a");
    println!("cargo:rerun-if-changed={}", archive.display());
    assert!(archive.exists(), "{} is missing: run outside/library first", archive.display());
    println!("cargo:rustc-link-search=native={}", folder.display());
    println!("cargo:rustc-link-lib=static=olipranj");
}
