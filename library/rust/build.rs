// Finds the static library: in the folder that LIHVOMPA_LIBRARY names, else where `rt lib` in crates/export puts it in this repository.
use std::env;
use std::path::PathBuf;

fn main() {
    println!("cargo:rerun-if-env-changed=LIHVOMPA_LIBRARY");
    let here = PathBuf::from(env::var_os("CARGO_MANIFEST_DIR").unwrap());
    let folder = env::var_os("LIHVOMPA_LIBRARY").map_or(here.join("../../crates/export/out"), PathBuf::from);
    let archive = folder.join("libexport.a");
    if !archive.is_file() {
        panic!("{} is not there: run `rt lib` in crates/export first, or name its folder in LIHVOMPA_LIBRARY", archive.display());
    }
    println!("cargo:rerun-if-changed={}", archive.display());
    println!("cargo:rustc-link-search=native={}", folder.display());
    println!("cargo:rustc-link-lib=static=export");
}
