//! libgauge.a, the search and the mark alone, is looked for beside libjuzambore.a.
use std::{env, path::PathBuf};

fn main() {
    let folder = PathBuf::from(env::var_os("DEP_JUZAMBORE_FOLDER").expect("juzambore names the libraries' folder"));
    let library = folder.join("libgauge.a");
    if !library.exists() {
        panic!("no {}: make it with `host/libraries.sh`", library.display());
    }
    println!("cargo:rerun-if-changed={}", library.display());
    println!("cargo:rustc-link-search=native={}", folder.display());
    println!("cargo:rustc-link-lib=static=gauge");
}
