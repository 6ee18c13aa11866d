//! Sheet files, each read and judged once.
use rascrunel::quoting;
use rascrunel::{Sheet, SheetRefusal};
use std::collections::HashMap;
use std::ffi::OsStr;
use std::fs::File;
use std::io::{self, Read};
use std::os::unix::ffi::OsStrExt;
use std::path::{Path, PathBuf};

// The most bytes of a file that is read: far longer than any sheet, and than any drawer that people write.
const MOST: u64 = 256 << 20;

/// The whole of a file, or why it cannot be read.
pub fn read(path: &Path) -> Result<Vec<u8>, String> {
    let file = File::open(path).map_err(|e| e.to_string())?;
    read_from(file)
}

/// The whole of what can be read there.
pub fn read_from(from: impl Read) -> Result<Vec<u8>, String> {
    let mut bytes = Vec::new();
    let read: io::Result<usize> = from.take(MOST + 1).read_to_end(&mut bytes);
    read.map_err(|e| e.to_string())?;
    if bytes.len() as u64 > MOST {
        return Err(format!("over {MOST} bytes, too long"));
    }
    Ok(bytes)
}

// A sheet, or why it is none; or why its file cannot be read.
type Held = Result<Result<Sheet, SheetRefusal>, String>;

/// The sheets that were asked for so far.
pub struct Sheets {
    folder: PathBuf,
    held: HashMap<PathBuf, Held>,
}

impl Sheets {
    /// Sheets whose paths begin in this folder, the current one for none.
    pub fn of(folder: Option<&Path>) -> Sheets {
        Sheets { folder: folder.unwrap_or(Path::new("")).to_path_buf(), held: HashMap::new() }
    }

    /// The sheet of a path.
    pub fn get(&mut self, path: &[u8]) -> Result<&Result<Sheet, SheetRefusal>, &str> {
        let path = self.folder.join(OsStr::from_bytes(path));
        let held = self.held.entry(path).or_insert_with_key(|path| {
            let bytes = read(path).map_err(|what| format!("the sheet {} cannot be read: {what}", quoting::path(path)))?;
            Ok(Sheet::try_from(bytes))
        });
        held.as_ref().map_err(String::as_str)
    }
}
