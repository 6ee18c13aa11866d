// Links the proved archive: libcapi.a in the folder that RASCRUNEL_LIB names, else the newer of those in the repository's target/tools
// (bin/make) and crates/capi/out (rt lib). Where that cannot be, it says what is missing and what to do.
use std::env;
use std::fs;
use std::path::{Path, PathBuf};

// The newest call of the library: an archive without it was made of older sources.
const NEWEST: &str = "sgl_values";

const ARCHIVE: &str = "libcapi.a";

// Where the archive may stand; none of the folders need be there.
fn folders() -> Vec<PathBuf> {
    match env::var_os("RASCRUNEL_LIB") {
        Some(folder) => vec![PathBuf::from(folder)],
        None => {
            let repository = Path::new(&env::var_os("CARGO_MANIFEST_DIR").unwrap_or_default()).join("../..");
            vec![repository.join("crates/capi/out"), repository.join("target/tools")]
        }
    }
}

fn newest(folders: &[PathBuf]) -> PathBuf {
    let made = |folder: &&PathBuf| fs::metadata(folder.join(ARCHIVE)).and_then(|data| data.modified()).ok();
    folders.iter().max_by_key(made).cloned().unwrap_or_default()
}

// Why the archive cannot be linked.
fn trouble(archive: &Path) -> Option<String> {
    let target = |what: &str| env::var(format!("CARGO_CFG_TARGET_{what}")).unwrap_or_default();
    let machine = (target("ARCH"), target("OS"));
    if machine != ("x86_64".into(), "linux".into()) {
        return Some(format!("the proved library is for x86-64 Linux, not for {} {}", machine.0, machine.1));
    }
    let make = "type `bin/make` in the repository, which makes all tools, or `rt lib` in its crates/capi, which makes the archive";
    let elsewhere = "where it stands elsewhere, set RASCRUNEL_LIB to its folder";
    match fs::read(archive) {
        Err(e) => Some(format!("the proved library {} cannot be read ({e}): {make}; {elsewhere}", archive.display())),
        Ok(bytes) if !bytes.windows(NEWEST.len()).any(|piece| piece == NEWEST.as_bytes()) => {
            Some(format!("the proved library {} is older than these bindings, it has no {NEWEST}: {make}", archive.display()))
        }
        Ok(_) => None,
    }
}

fn main() {
    println!("cargo::rerun-if-env-changed=RASCRUNEL_LIB");
    let folders = folders();
    for folder in &folders {
        println!("cargo::rerun-if-changed={}", folder.join(ARCHIVE).display());
    }
    let folder = newest(&folders);
    let archive = folder.join(ARCHIVE);
    match trouble(&archive) {
        // cargo shows it and ends with an error
        Some(trouble) => println!("cargo::error={trouble}"),
        None => {
            println!("cargo::rustc-link-search=native={}", folder.display());
            println!("cargo::rustc-link-lib=static=capi");
        }
    }
}
