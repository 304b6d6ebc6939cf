//! Links the compiled library. The archive stands at
//! target/staticlib/libpool.a of the repository, or where POOL_ARCHIVE says.

use std::path::PathBuf;
use std::{env, fs};

const OVERRIDE: &str = "POOL_ARCHIVE";
const USUAL: &str = "../../target/staticlib/libpool.a";

fn main() {
    println!("cargo:rerun-if-env-changed={OVERRIDE}");
    let package = PathBuf::from(env::var_os("CARGO_MANIFEST_DIR").expect("cargo sets it"));
    let archive = match env::var_os(OVERRIDE) {
        Some(path) => PathBuf::from(path),
        None => package.join(USUAL),
    };
    println!("cargo:rerun-if-changed={}", archive.display());
    // A copy, so that the archive may have any name.
    let out = PathBuf::from(env::var_os("OUT_DIR").expect("cargo sets it"));
    if let Err(error) = fs::copy(&archive, out.join("libpool.a")) {
        panic!(
            "no archive of the compiled library at {}: {error}. Make it with `tools/build pool` \
             in the repository's root, or name another one in {OVERRIDE}",
            archive.display()
        );
    }
    println!("cargo:rustc-link-search=native={}", out.display());
    println!("cargo:rustc-link-lib=static=pool");
}
