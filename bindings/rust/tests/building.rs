// The build script: what it says where the archive cannot be linked, and that it never panics.
#[allow(dead_code)] // this tests another tool
mod tool;

use std::env;
use std::fs;
use std::io::Write;
use std::path::Path;
use std::process::Command;
use std::time::{Duration, UNIX_EPOCH};
use tool::folder;

/// What the script prints with the archive looked for in this folder, on this machine.
fn said(script: &Path, lib: Option<&Path>, machine: (&str, &str)) -> String {
    let mut command = Command::new(script);
    command.env_clear().env("CARGO_MANIFEST_DIR", script.parent().unwrap().join("bindings/rust")).env("RUST_BACKTRACE", "1");
    command.env("CARGO_CFG_TARGET_ARCH", machine.0).env("CARGO_CFG_TARGET_OS", machine.1);
    if let Some(lib) = lib {
        command.env("RASCRUNEL_LIB", lib);
    }
    let output = command.output().unwrap();
    assert!(output.status.success() && output.stderr.is_empty(), "{output:?}");
    String::from_utf8(output.stdout).unwrap()
}

#[test]
fn what_is_missing() {
    let dir = folder("building");
    let script = dir.join("build");
    let source = Path::new(env!("CARGO_MANIFEST_DIR")).join("build.rs");
    let rustc = env::var_os("RUSTC").unwrap_or("rustc".into());
    assert!(Command::new(rustc).args(["--edition", "2021", "-o"]).arg(&script).arg(source).status().unwrap().success());
    let here = ("x86_64", "linux");
    // each error is one line for cargo, and then nothing is linked
    let refused = |lib: Option<&Path>, machine, words: &[&str]| {
        let said = said(&script, lib, machine);
        let errors: Vec<&str> = said.lines().filter(|line| line.starts_with("cargo::error=")).collect();
        assert_eq!(errors.len(), 1, "{said}");
        assert!(words.iter().all(|word| errors[0].contains(word)) && !said.contains("rustc-link"), "{said}");
    };
    let none = dir.join("none");
    let what_to_type = ["bin/make", "rt lib", "RASCRUNEL_LIB"];
    refused(Some(&none), here, &[&[none.join("libcapi.a").to_str().unwrap(), "cannot be read"], what_to_type.as_slice()].concat());
    refused(None, here, &[&["bindings/rust/../../target/tools/libcapi.a"], what_to_type.as_slice()].concat());
    refused(Some(&none), ("aarch64", "macos"), &["x86-64 Linux", "aarch64 macos"]);
    fs::write(dir.join("libcapi.a"), "!<arch>\nsgl_claim sgl_value_at sgl_value_in").unwrap();
    refused(Some(&dir), here, &["older than these bindings", "sgl_values", "bin/make"]);
    // without a folder named, the newer of the two of the repository
    for (older, newer) in [("target/tools", "crates/capi/out"), ("crates/capi/out", "target/tools")] {
        for (name, seconds) in [(older, 1_000), (newer, 2_000)] {
            let folder = dir.join(name);
            fs::create_dir_all(&folder).unwrap();
            let archive = fs::File::create(folder.join("libcapi.a")).unwrap();
            (&archive).write_all(b"sgl_values").unwrap();
            archive.set_modified(UNIX_EPOCH + Duration::from_secs(seconds)).unwrap();
        }
        fs::create_dir_all(dir.join("bindings/rust")).unwrap();
        let said = said(&script, None, here);
        assert!(said.contains(&format!("rustc-link-search=native={}", dir.join("bindings/rust/../..").join(newer).display())), "{said}");
    }
    // the archive that these tests are linked with
    if let Some(lib) = env::var_os("RASCRUNEL_LIB") {
        let said = said(&script, Some(Path::new(&lib)), here);
        let linked = format!("cargo::rustc-link-search=native={}\ncargo::rustc-link-lib=static=capi\n", Path::new(&lib).display());
        assert!(said.ends_with(&linked) && !said.contains("cargo::error"), "{said}");
    }
    fs::remove_dir_all(&dir).unwrap();
}
