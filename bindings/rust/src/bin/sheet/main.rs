// sheet make TEXT SHEET, sheet show SHEET, sheet check FILE, sheet tidy IN OUT: a sheet file from a text and back, what is wrong with one,
// lists tidied, through the library.
#![warn(clippy::undocumented_unsafe_blocks)]

mod help;
mod replace;
mod stdout;

use help::Command;
use rascrunel::{quoting, raw, text, Sheet};
use std::fmt::Display;
use std::fs::{self, File};
use std::io::{self, Read, Write};
use std::path::{Path, PathBuf};
use std::process::ExitCode;

// Longer than the text of any sheet.
const TEXT_BYTES: usize = 1 << 20;

// The most bytes of a file of lists to be tidied.
const LISTS_BYTES: usize = 256 << 20;

// What is said of a file, each line with its name before it.
fn named(path: &Path, said: impl Display) -> String {
    said.to_string().lines().map(|line| format!("{}: {line}", quoting::path(path))).collect::<Vec<_>>().join("\n")
}

// The whole of a file that has at most `most` bytes.
fn read(path: &Path, most: usize) -> Result<Vec<u8>, String> {
    let say = |e: io::Error| named(path, e);
    let too_long = || named(path, format!("over {most} bytes, too long"));
    let data = fs::metadata(path).map_err(say)?;
    if data.is_dir() {
        return Err(named(path, "is a directory"));
    }
    if data.len() > most as u64 {
        return Err(too_long());
    }
    // what is no regular file tells no length
    let mut bytes = Vec::new();
    let file = File::open(path).map_err(say)?;
    file.take(most as u64 + 1).read_to_end(&mut bytes).map_err(say)?;
    if bytes.len() > most {
        return Err(too_long());
    }
    Ok(bytes)
}

// The text of a file that is no sheet.
fn text_of<'a>(path: &Path, bytes: &'a [u8]) -> Result<&'a str, String> {
    if text::is_sheet(bytes) {
        return Err(named(path, "is a sheet and no text; `sheet show` prints it as one"));
    }
    text::utf8(bytes).map_err(|wrong| named(path, wrong))
}

fn write(to: &Path, from: &Path, bytes: &[u8]) -> Result<(), String> {
    replace::replace(to, from, bytes).map_err(|what| named(to, what))
}

fn make(from: &Path, to: &Path) -> Result<(), String> {
    let bytes = read(from, TEXT_BYTES)?;
    let sheet = text::read(text_of(from, &bytes)?).map_err(|wrongs| named(from, wrongs))?;
    write(to, from, sheet.bytes())
}

fn tidy_raw(from: &Path, bytes: &[u8]) -> Result<Vec<u8>, String> {
    let zero = bytes.iter().take_while(|&&byte| byte != 0).count();
    raw::tidy(bytes).map_err(|wrongs| named(from, format!("byte {zero} is 0, so these are raw lists and no text\n{wrongs}")))
}

fn tidy(from: &Path, to: &Path) -> Result<(), String> {
    let bytes = read(from, LISTS_BYTES)?;
    // as a raw list's count the mark of a sheet, and that of UTF-16, is far above 256, so that no lists are turned away
    let tidied = if raw::is_raw(&bytes) && !text::is_sheet(&bytes) && !text::is_utf16(&bytes) {
        tidy_raw(from, &bytes)?
    } else {
        text::tidy(text_of(from, &bytes)?).map_err(|wrongs| named(from, wrongs))?.into_bytes()
    };
    write(to, from, &tidied)
}

// The sheet of a file. A file that is longer than any sheet is read too, up to a text's length, to say what it is.
fn sheet_of(path: &Path) -> Result<Sheet, String> {
    Sheet::try_from(read(path, TEXT_BYTES)?).map_err(|refusal| named(path, refusal))
}

fn show(path: &Path) -> Result<(), String> {
    stdout::print(&text::write(&sheet_of(path)?))
}

fn counted(count: usize, what: &str) -> String {
    format!("{count} {what}{}", if count == 1 { "" } else { "s" })
}

fn check(path: &Path) -> Result<(), String> {
    let sheet = sheet_of(path)?;
    let words = sheet.signals().map(|(_, list)| list.words().len()).sum();
    let said = format!("a sheet of {}, {}", counted(sheet.signals().count(), "signal"), counted(words, "word"));
    stdout::print(&(named(path, said) + "\n"))
}

// Says something on standard error. Where that cannot be done, the exit status is left.
fn say(what: &str) {
    for line in what.lines() {
        let _ = writeln!(io::stderr(), "sheet: {line}");
    }
}

fn wrong_use(what: String) -> ExitCode {
    say(&what);
    ExitCode::from(2)
}

const COMMANDS: [Command; 4] = [
    Command {
        name: "make",
        files: &["TEXT", "SHEET"],
        does: "writes the sheet file SHEET from the text file TEXT",
        more: &[help::TEXT, help::WRONG, help::WRITTEN],
        run: |files| make(&files[0], &files[1]),
    },
    Command {
        name: "show",
        files: &["SHEET"],
        does: "prints the sheet file SHEET as a text, of which `sheet make` makes the same sheet",
        more: &[help::TEXT],
        run: |files| show(&files[0]),
    },
    Command {
        name: "check",
        files: &["FILE"],
        does: "says whether FILE is a sheet, and if not, what is wrong with it and where",
        more: &[help::CHECKED],
        run: |files| check(&files[0]),
    },
    Command {
        name: "tidy",
        files: &["IN", "OUT"],
        does: "writes the file OUT from the file IN, a text or raw lists, without the changes that change nothing",
        more: &[help::TIDIED, help::TEXT, help::WRONG, help::WRITTEN],
        run: |files| tidy(&files[0], &files[1]),
    },
];

fn is_help(arg: &Path) -> bool {
    ["--help", "-h"].iter().any(|help| arg.as_os_str() == *help)
}

fn main() -> ExitCode {
    let args: Vec<PathBuf> = std::env::args_os().skip(1).map(PathBuf::from).collect();
    let Some((name, files)) = args.split_first() else {
        let _ = io::stderr().write_all(help::help(&COMMANDS).as_bytes());
        return ExitCode::from(2);
    };
    let done = match COMMANDS.iter().find(|command| name.as_os_str() == command.name) {
        None if is_help(name) || name.as_os_str() == "help" => stdout::print(&help::help(&COMMANDS)),
        None => {
            let (name, commands) = (name.to_string_lossy(), COMMANDS.map(|command| command.name).join(", "));
            return wrong_use(format!("{name:?} is no command; the commands are {commands}; `sheet --help` tells more"));
        }
        Some(command) if files.iter().any(|file| is_help(file)) => stdout::print(&command.help()),
        Some(command) if files.len() != command.files.len() => {
            let given = counted(files.len(), "file");
            return wrong_use(format!("{given} given to {}: the use is `{}`; `sheet --help` tells more", command.name, command.usage()));
        }
        Some(command) => (command.run)(files),
    };
    match done {
        Ok(()) => ExitCode::SUCCESS,
        Err(what) => {
            say(&what);
            ExitCode::FAILURE
        }
    }
}
