//! What the tool tells of itself.

use std::path::PathBuf;

/// A command of the tool.
pub struct Command {
    pub name: &'static str,
    /// The files that it takes, by the names that they have in its help.
    pub files: &'static [&'static str],
    /// What it does with them.
    pub does: &'static str,
    /// The parts of the help that tell more of it.
    pub more: &'static [&'static str],
    /// Does it with as many files.
    pub run: fn(&[PathBuf]) -> Result<(), String>,
}

pub const TEXT: &str = "\
A text has one line a signal, with a name of 1 to 8 lowercase letters and digits, a letter first:
  NAME : down, up from 5, down after 9, up at 12   the value at the start, then the changes, dates in ticks:
                                                   from: at the date and after it; after: not yet at it; at: at it only
  NAME = 0 23 38                                   the words themselves
After a comma at the end of its line a list of changes goes on in the next. Empty lines and lines that begin with # say nothing.
Dates are at most 1073741823. A text is in UTF-8; it may begin with a byte order mark, and its lines may end with CR LF.
";

pub const WRONG: &str = "\
What is wrong with a text is told with its line and column, the column in characters, for the first 20 places.
";

pub const CHECKED: &str = "\
Of a sheet its signals and their words are counted. What is wrong is told with the signal, the word and the byte of the file, where there
is one: signals and words are counted from 1, bytes from 0.
";

pub const TIDIED: &str = "\
To be tidied, a text may have any number of lines, and what stands before : or = may be any name. Each signal's list is written anew in
its own notation, on one line; all other lines stay as they are. A file with a zero byte is no text but raw lists, one after the other,
each a count of 16 bits and so many words of 32 bits, low byte first. A list has at most 256 words, those that go counted too; IN has at
most 256 MB. Where a list is refused or a line cannot be read, OUT is not written.
";

pub const WRITTEN: &str = "\
SHEET and OUT are written whole or left as they were. A file that is there keeps its mode; a symbolic link stays and the file that it
points to is written. Refused: what is no regular file, the file TEXT or IN itself, and a file that may not be written.
";

const STATUS: &str = "Exit status: 0 done, 1 not done, 2 wrong use.\n";

impl Command {
    pub fn usage(&self) -> String {
        format!("sheet {} {}", self.name, self.files.join(" "))
    }

    pub fn help(&self) -> String {
        told(format!("{}\n  {}\n", self.usage(), self.does), self.more)
    }
}

/// The help of all commands.
pub fn help(commands: &[Command]) -> String {
    let first: String = commands.iter().map(|command| format!("{:<23}{}\n", command.usage(), command.does)).collect();
    told(first + "sheet COMMAND --help   tells of one command\n", &[TEXT, TIDIED, CHECKED, WRONG, WRITTEN])
}

// The first part of a help, then the others and the exit status, with an empty line between two.
fn told(first: String, more: &[&str]) -> String {
    let parts: Vec<&str> = [&[first.as_str()], more, &[STATUS]].concat();
    parts.join("\n")
}
