//! Writes a file whole or leaves it as it was: beside it first, then in its place.
use rascrunel::quoting;
use std::fs::{self, File, Metadata, OpenOptions};
use std::io::{self, ErrorKind, Write};
use std::os::unix::fs::{fchown, MetadataExt, OpenOptionsExt};
use std::path::{Path, PathBuf};
use std::process;

// The most links that the system follows.
const LINKS: usize = 40;

// Where a path leads, link by link; the last file need not be there.
fn followed(path: &Path) -> Result<PathBuf, String> {
    let mut path = path.to_path_buf();
    for _ in 0..LINKS {
        match fs::read_link(&path) {
            Ok(next) => path = path.parent().unwrap_or(Path::new("")).join(next),
            Err(_) => return Ok(path),
        }
    }
    Err("too many links".to_string())
}

// What a path leads to, none if there is nothing.
fn there(path: &Path) -> Result<Option<Metadata>, String> {
    match fs::metadata(path) {
        Ok(data) => Ok(Some(data)),
        Err(e) if e.kind() == ErrorKind::NotFound => Ok(None),
        Err(e) => Err(e.to_string()),
    }
}

fn identity(data: &Option<Metadata>) -> Option<(u64, u64)> {
    data.as_ref().map(|data| (data.dev(), data.ino()))
}

// Judges the file that is there. Root may write every file: one that nobody may write is refused for root too.
fn judge(path: &Path, input: &Path, data: &Metadata) -> Result<(), String> {
    if data.is_dir() {
        return Err("is a directory".to_string());
    }
    if !data.is_file() {
        return Err("is no regular file".to_string());
    }
    if identity(&there(input)?) == Some((data.dev(), data.ino())) {
        return Err(format!("is the same file as {}", quoting::path(input)));
    }
    if data.permissions().readonly() {
        return Err("may not be written".to_string());
    }
    OpenOptions::new().write(true).open(path).map_err(|e| format!("may not be written: {e}"))?;
    Ok(())
}

// The mode of the file that is there, and its owner too where the system allows it.
fn like(file: &File, data: &Metadata) -> io::Result<()> {
    let _ = fchown(file, Some(data.uid()), Some(data.gid()));
    file.set_permissions(data.permissions())
}

/// Writes the file at a path, which is not `input`.
pub fn replace(path: &Path, input: &Path, bytes: &[u8]) -> Result<(), String> {
    let before = there(path)?;
    if let Some(data) = &before {
        judge(path, input, data)?;
    }
    // A link such as /dev/stdout leads to a file, not to a path.
    let path = followed(path)?;
    if identity(&there(&path)?) != identity(&before) {
        return Err("is a link to no path".to_string());
    }
    path.file_name().ok_or("no file name")?;
    let part = path.with_file_name(format!("sheet.{}.part", process::id()));
    let mode = if before.is_some() { 0o600 } else { 0o666 };
    uninterrupted(|| {
        let mut file = match OpenOptions::new().write(true).create_new(true).mode(mode).open(&part) {
            Ok(file) => file,
            Err(e) => return Err(format!("{}: {e}", quoting::path(&part))),
        };
        let done = before.map_or(Ok(()), |data| like(&file, &data));
        let done = done.and_then(|()| file.write_all(bytes)).and_then(|()| file.sync_all()).and_then(|()| fs::rename(&part, &path));
        if done.is_err() {
            let _ = fs::remove_file(&part);
        }
        done.map_err(|e| e.to_string())
    })
}

// A set of signals as glibc and musl have it on Linux.
#[repr(C)]
struct Signals([u64; 16]);

extern "C" {
    fn sigfillset(set: *mut Signals) -> i32;
    fn pthread_sigmask(how: i32, set: *const Signals, old: *mut Signals) -> i32;
}
const SIG_BLOCK: i32 = 0;
const SIG_SETMASK: i32 = 2;

// Does it with every signal held back that can be: they arrive when it is done.
fn uninterrupted<T>(act: impl FnOnce() -> T) -> T {
    let (mut all, mut before) = (Signals([0; 16]), Signals([0; 16]));
    // SAFETY: both sets are of the type and the size that the C library has on 64-bit Linux, aligned, and borrowed for the calls alone.
    unsafe {
        sigfillset(&mut all);
        pthread_sigmask(SIG_BLOCK, &all, &mut before);
    }
    let done = act();
    // SAFETY: as above; the set is the one that the first call wrote, and a null pointer asks for no old one.
    unsafe {
        pthread_sigmask(SIG_SETMASK, &before, std::ptr::null_mut());
    }
    done
}
