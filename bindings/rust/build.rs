//! Where libzikorape.a lies: the folder that `ZIKORAPE_LIB` names, else `lib/` of the crate, else `bindings/out` of the repository.

use std::env;
use std::path::PathBuf;

fn main() {
    println!("cargo:rerun-if-env-changed=ZIKORAPE_LIB");
    let root = PathBuf::from(env::var("CARGO_MANIFEST_DIR").unwrap_or_default());
    let folders = [env::var("ZIKORAPE_LIB").ok().map(PathBuf::from), Some(root.join("lib")), Some(root.join("../out"))];
    if let Some(folder) = folders.into_iter().flatten().find(|folder| folder.join("libzikorape.a").exists()) {
        println!("cargo:rustc-link-search=native={}", folder.display());
    }
    println!("cargo:rustc-link-lib=static=zikorape");
}
