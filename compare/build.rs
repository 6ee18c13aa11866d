// Links the proved archive: libcapi.a in the folder that RASCRUNEL_LIB names, else in the repository's crates/capi/out.
use std::env;
use std::path::PathBuf;

fn main() {
    println!("cargo:rerun-if-env-changed=RASCRUNEL_LIB");
    let folder = match env::var_os("RASCRUNEL_LIB") {
        Some(folder) => PathBuf::from(folder),
        None => PathBuf::from(env::var_os("CARGO_MANIFEST_DIR").unwrap()).join("../crates/capi/out"),
    };
    let archive = folder.join("libcapi.a");
    if !archive.exists() {
        panic!("{} is missing: run `rt lib` in the repository's crates/capi, or set RASCRUNEL_LIB", archive.display());
    }
    println!("cargo:rerun-if-changed={}", archive.display());
    println!("cargo:rustc-link-search=native={}", folder.display());
    println!("cargo:rustc-link-lib=static=capi");
}
