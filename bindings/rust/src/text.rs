//! Sheets as text, one line a signal: `NAME : CHANGE, CHANGE ..`, or `NAME = WORD WORD ..`.
//!
//! The first change is `up` or `down`, the value from the start on. The others are `up from 5` (at 5 and after it), `up after 5`
//! (not yet at 5) and `up at 5` (at 5 only), or the same with `down`. A list of changes may go on in the next line, after a comma. Empty
//! lines and lines that begin with # say nothing.
//!
//! A text may begin with a byte order mark, and its lines may end with a carriage return and a line feed. To be tidied, it may have any
//! number of lines, any names, and changes that change nothing, such as `up from 7` while up.
//!
//! ```
//! use rascrunel::{List, Sheet};
//! let sheet: Sheet = "needle : down, up from 150, down from 190\n".parse()?;
//! assert_eq!(sheet.lookup("needle")?.words(), [0, 603, 760]);
//! assert_eq!(sheet.to_string(), "needle : down, up from 150, down from 190\n");
//! let list: List = "down, up at 5".parse()?;
//! assert_eq!((list.words(), list.to_string().as_str()), (&[0, 22][..], "down, up at 5"));
//! # Ok::<(), Box<dyn std::error::Error>>(())
//! ```
mod lines;
mod signals;

use crate::{calls, raw, Change, Fault, List, Sheet, Wrongs};
use lines::{end_of, Bad, Line, Lines};
use signals::{Notation, Signal};
use std::error::Error;
use std::fmt::{self, Write};
use std::iter;
use std::str::FromStr;

/// What is wrong with a text, and where.
#[derive(Clone, Debug, PartialEq, Eq)]
#[non_exhaustive]
pub struct Wrong {
    /// The line, counted from 1.
    pub line: usize,
    /// The character of the line at which the name, change or number that is wrong begins, counted from 1.
    pub column: usize,
    /// The fault with which the library refuses it; none for what it is not asked, since it is no name and no word.
    pub fault: Option<Fault>,
    /// What is wrong, with the name, change or number itself.
    pub what: String,
}

impl fmt::Display for Wrong {
    fn fmt(&self, f: &mut fmt::Formatter<'_>) -> fmt::Result {
        write!(f, "line {}, column {}: ", self.line, self.column)?;
        if let Some(fault) = self.fault {
            write!(f, "refused {}: ", fault.number())?;
        }
        f.write_str(&self.what)
    }
}

impl Error for Wrong {}

pub(crate) const BYTE_ORDER_MARK: &str = "\u{feff}";

// The byte order mark of a text, where it has one, and the text after it.
fn split_mark(text: &str) -> (&str, &str) {
    text.split_at(if text.starts_with(BYTE_ORDER_MARK) { BYTE_ORDER_MARK.len() } else { 0 })
}

/// The text of a file, which is in UTF-8.
///
/// ```
/// # use rascrunel::text;
/// assert_eq!(text::utf8(b"a : up\n").unwrap(), "a : up\n");
/// let wrong = text::utf8(b"a : up\n# \xfcber\n").unwrap_err();
/// assert_eq!(wrong.to_string(), "line 2, column 3: byte 9 of the file, 0xfc, is no UTF-8; save the text as UTF-8");
/// ```
pub fn utf8(bytes: &[u8]) -> Result<&str, Wrong> {
    let wrong = |(line, column), what| Wrong { line, column, fault: None, what };
    if is_utf16(bytes) {
        return Err(wrong((1, 1), IN_UTF16.to_string()));
    }
    std::str::from_utf8(bytes).map_err(|_| {
        let before = bytes.utf8_chunks().next().map_or("", |chunk| chunk.valid());
        let (_, text) = split_mark(before);
        let (at, byte) = (before.len(), bytes[before.len()]);
        wrong(end_of(text), format!("byte {at} of the file, 0x{byte:02x}, is no UTF-8; save the text as UTF-8"))
    })
}

#[doc(hidden)]
pub const IN_UTF16: &str = "the file is in UTF-16; save the text as UTF-8";

/// Whether a file begins with the byte order mark of UTF-16.
pub fn is_utf16(bytes: &[u8]) -> bool {
    bytes.starts_with(&[0xff, 0xfe]) || bytes.starts_with(&[0xfe, 0xff])
}

/// Whether a file is a sheet, good or bad, and no text: the mark of a sheet may begin a text too, but one without a zero byte.
pub fn is_sheet(bytes: &[u8]) -> bool {
    bytes.starts_with(b"SGL") && raw::is_raw(bytes)
}

/// The sheet of a text, by begin and append. Of what is wrong each place is told, not the first alone.
///
/// ```
/// # use rascrunel::text;
/// let wrongs = text::read("a : down, up from 9, down from 5\nB : up, down at 1073741824\n").unwrap_err();
/// assert_eq!(
///     wrongs.to_string(),
///     "line 1, column 22: refused 3: the date of \"down from 5\" is not above 9, that of \"up from 9\" before it\n\
///      line 2, column 1: refused 16: the name \"B\" has \"B\" in it: a name is 1 to 8 lowercase letters and digits, a letter first\n\
///      line 2, column 17: the date \"1073741824\" is above M = 1073741823"
/// );
/// ```
pub fn read(text: &str) -> Result<Sheet, Wrongs<Wrong>> {
    let (_, text) = split_mark(text);
    let mut wrongs = Wrongs::none();
    let mut names = Vec::new();
    let mut sheet = Sheet::begin().map_err(|fault| Wrongs::one(refused_whole(fault)))?;
    for line in Lines::of(text) {
        let signal = match signal_of(&line) {
            Ok(Some(signal)) => signal,
            Ok(None) => continue,
            Err(bad) => {
                wrongs.add(|| line.wrong(bad));
                continue;
            }
        };
        let list = judged(&signal);
        // for a list that is wrong another stands in, so that all names and their count are judged
        let appended = sheet.append(signal.name, list.as_deref().unwrap_or(&[0]));
        if let Err(fault) = appended {
            wrongs.add(|| line.wrong(signal.name_refused(fault, &names)));
        }
        // one that finds no room is counted too
        if appended != Err(Fault::Name) {
            names.push((signal.name, line.number));
        }
        sheet = appended.unwrap_or(sheet);
        if let Err(bad) = list {
            wrongs.add(|| line.wrong(bad));
        }
    }
    wrongs.or(sheet)
}

// What the library says of no place in the text.
fn refused_whole(fault: Fault) -> Wrong {
    Wrong { line: 1, column: 1, fault: Some(fault), what: fault.text().to_string() }
}

// The words of a signal's list, if they are accepted.
fn judged<'a>(signal: &Signal<'a>) -> Result<Vec<u32>, Bad<'a>> {
    let words = signal.words()?;
    match calls::list_fault(&words) {
        Ok(()) => Ok(words),
        Err(fault) => {
            let bad = signal.refused(&words, fault, calls::list_fault);
            let hint = if fault == Fault::NoChange { "; `sheet tidy` leaves it out" } else { "" };
            Err(Bad { what: bad.what + hint, ..bad })
        }
    }
}

/// The text with the list of each signal tidied, in the notation that it has and on one line; all other lines stay as they are, as do
/// a byte order mark and the ends of lines, and names are not judged.
///
/// ```
/// # use rascrunel::text;
/// let tidied = text::tidy("# from 2019\nknife : down, up from 5, up from 7, down from 9\nneedle = 0 16 23\n").unwrap();
/// assert_eq!(tidied, "# from 2019\nknife : down, up from 5, down from 9\nneedle = 0 23\n");
/// ```
pub fn tidy(text: &str) -> Result<String, Wrongs<Wrong>> {
    let mut tidied = String::with_capacity(text.len());
    let mut wrongs = Wrongs::none();
    let (mark, text) = split_mark(text);
    tidied.push_str(mark);
    for line in Lines::of(text) {
        match tidy_line(&line, &mut tidied) {
            Ok(()) => tidied.push_str(line.end),
            Err(bad) => wrongs.add(|| line.wrong(bad)),
        }
    }
    wrongs.or(tidied)
}

fn tidy_line<'a>(line: &Line<'a>, to: &mut String) -> Result<(), Bad<'a>> {
    let Some(signal) = signal_of(line)? else {
        to.push_str(line.body);
        return Ok(());
    };
    let words = signal.words()?;
    let tidied = match List::tidy(&words) {
        Ok(tidied) => tidied,
        Err(fault) => return Err(signal.refused(&words, fault, |words| List::tidy(words).map(drop))),
    };
    to.push_str(signal.name);
    let put = match signal.notation {
        Notation::Words => {
            to.push_str(" =");
            tidied.words().iter().try_for_each(|word| write!(to, " {word}"))
        }
        Notation::Changes => write!(to, " : {tidied}"),
    };
    put.expect("a string takes all that is put into it");
    Ok(())
}

// The signal of a line, none where the line says nothing.
fn signal_of<'a>(line: &Line<'a>) -> Result<Option<Signal<'a>>, Bad<'a>> {
    match line.stray() {
        Some(bad) => Err(bad),
        None if line.says_nothing() => Ok(None),
        None => Signal::new(line.body).map(Some),
    }
}

// The most columns of a line that is shown; a list goes on in the next, below its beginning.
const COLUMNS: usize = 120;

/// The text of a sheet, of which [`read`] makes the same sheet. A list that is too long for a line of 120 columns goes on in the next.
///
/// ```
/// # use rascrunel::{text, Sheet};
/// let sheet = Sheet::begin()?.append("a", &[0, 23, 36])?.append("lamp", &[1])?;
/// assert_eq!(text::write(&sheet), "a : down, up from 5, down from 9\nlamp : up\n");
/// # Ok::<(), rascrunel::Fault>(())
/// ```
pub fn write(sheet: &Sheet) -> String {
    let mut text = String::new();
    for (name, list) in sheet {
        let start = text.len();
        text += name;
        text += " : ";
        let indent = text.len() - start;
        text += level(list.start());
        let mut column = text.len() - start;
        for change in changes(&list) {
            let change = change.to_string();
            // with a comma and a blank before it, and a comma after it
            if column + change.len() + 3 > COLUMNS {
                text += ",\n";
                text.extend(iter::repeat_n(' ', indent));
                column = indent;
            } else {
                text += ", ";
                column += 2;
            }
            text += &change;
            column += change.len();
        }
        text += "\n";
    }
    text
}

fn level(up: bool) -> &'static str {
    if up {
        "up"
    } else {
        "down"
    }
}

// A change as it is written.
struct Told {
    up: bool,
    how: &'static str,
    date: u32,
}

impl fmt::Display for Told {
    fn fmt(&self, f: &mut fmt::Formatter<'_>) -> fmt::Result {
        write!(f, "{} {} {}", level(self.up), self.how, self.date)
    }
}

fn changes(list: &List) -> impl Iterator<Item = Told> + '_ {
    list.changes().scan(list.start(), |before, Change { date, at, after }| {
        let (up, how) = match (at == *before, after == *before) {
            (false, false) => (after, "from"),
            (true, _) => (after, "after"),
            (false, true) => (at, "at"),
        };
        *before = after;
        Some(Told { up, how, date })
    })
}

/// As a text, by [`read`].
impl FromStr for Sheet {
    type Err = Wrongs<Wrong>;

    fn from_str(text: &str) -> Result<Sheet, Wrongs<Wrong>> {
        read(text)
    }
}

/// As a text, by [`write`](fn@write).
impl fmt::Display for Sheet {
    fn fmt(&self, f: &mut fmt::Formatter<'_>) -> fmt::Result {
        f.write_str(&write(self))
    }
}

/// By its changes, such as `down, up from 5, down from 9`.
///
/// ```
/// # use rascrunel::List;
/// let wrong = "down, up from 5, up from 9".parse::<List>().unwrap_err();
/// assert_eq!(wrong.to_string(), "line 1, column 18: refused 4: \"up from 9\" changes nothing: the signal is up already");
/// ```
impl FromStr for List {
    type Err = Wrong;

    fn from_str(changes: &str) -> Result<List, Wrong> {
        let (line, signal) = (Line::whole(changes), Signal::of_changes(changes));
        let words = signal.words().map_err(|bad| line.wrong(bad))?;
        List::new(&words).map_err(|fault| line.wrong(signal.refused(&words, fault, calls::list_fault)))
    }
}

/// By its changes, on one line.
impl fmt::Display for List {
    fn fmt(&self, f: &mut fmt::Formatter<'_>) -> fmt::Result {
        f.write_str(level(self.start()))?;
        changes(self).try_for_each(|change| write!(f, ", {change}"))
    }
}
