// The tool `sheet`, and folders for it.
use std::ffi::OsStr;
use std::fs;
use std::path::PathBuf;
use std::process::{Command, Output};

pub fn folder(name: &str) -> PathBuf {
    let folder = std::env::temp_dir().join(format!("rascrunel-{}-{name}", std::process::id()));
    fs::create_dir_all(&folder).unwrap();
    folder
}

pub fn sheet(args: &[impl AsRef<OsStr>]) -> Output {
    Command::new(env!("CARGO_BIN_EXE_sheet")).args(args).output().unwrap()
}
