//! Finds libjuzambore.a: in the folder that JUZAMBORE_LIB names, or else where `host/libraries.sh` puts it. A
//! folder whose name does not begin with / is taken from this package's own. A package that stands on this one finds
//! the folder in DEP_JUZAMBORE_FOLDER.
use std::{env, path::PathBuf};

const MADE: &str = "../../target/staticlib";

fn main() {
    let named = env::var_os("JUZAMBORE_LIB").map(PathBuf::from);
    let package = PathBuf::from(env::var_os("CARGO_MANIFEST_DIR").expect("cargo names the package's folder"));
    let folder = package.join(named.unwrap_or_else(|| MADE.into()));
    let library = folder.join("libjuzambore.a");
    if !library.exists() {
        panic!("no {}: make it with `host/libraries.sh`, or name its folder in JUZAMBORE_LIB", library.display());
    }
    println!("cargo:rerun-if-env-changed=JUZAMBORE_LIB");
    println!("cargo:rerun-if-changed={}", library.display());
    println!("cargo:rustc-link-search=native={}", folder.display());
    println!("cargo:rustc-link-lib=static=juzambore");
    println!("cargo:folder={}", folder.display());
}
