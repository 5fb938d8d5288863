//! Links the static library that `rt lib` builds in crates/capi and rust/run.sh puts into target/staticlib.

use std::env;
use std::path::PathBuf;

fn main() {
    let folder = match env::var_os("KUZPALEN_LIB_DIR") {
        Some(dir) => PathBuf::from(dir),
        None => PathBuf::from(env::var_os("CARGO_MANIFEST_DIR").unwrap()).join("../../target/staticlib"),
    };
    println!("cargo:rerun-if-env-changed=KUZPALEN_LIB_DIR");
    println!("cargo:rerun-if-changed={}", folder.join("libcapi.a").display());
    println!("cargo:rustc-link-search=native={}", folder.display());
    println!("cargo:rustc-link-lib=static=capi");
}
