//! The lines of a text, and where their pieces stand.
use super::Wrong;
use crate::quoting::Quoted;
use crate::Fault;

/// A line of a text, or the lines over which a list of changes goes on.
pub struct Line<'a> {
    /// The number of the first of them, counted from 1.
    pub number: usize,
    /// What it says, without its end.
    pub body: &'a str,
    /// Its end: a line feed, with a carriage return before it or none; at the end of the text a carriage return or nothing.
    pub end: &'a str,
}

/// What is wrong with a piece of a line.
pub struct Bad<'a> {
    pub piece: &'a str,
    pub fault: Option<Fault>,
    pub what: String,
}

impl<'a> Bad<'a> {
    /// What no fault of the library says.
    pub fn new(piece: &'a str, what: String) -> Bad<'a> {
        Bad { piece, fault: None, what }
    }
}

impl<'a> Line<'a> {
    /// A text as one line of it.
    pub fn whole(text: &'a str) -> Line<'a> {
        Line { number: 1, body: text, end: "" }
    }

    pub fn says_nothing(&self) -> bool {
        says_nothing(self.body)
    }

    /// What is wrong with a piece of the line, and where the piece stands.
    pub fn wrong(&self, bad: Bad) -> Wrong {
        let before = &self.body[..bad.piece.as_ptr() as usize - self.body.as_ptr() as usize];
        let (line, column) = end_of(before);
        Wrong { line: self.number - 1 + line, column, fault: bad.fault, what: bad.what }
    }

    /// A character that no line has, in a comment neither: a zero byte is of no text; and after a carriage return, which ended a line once,
    /// a comment would hide what follows. At the end of the text nothing follows, and it is an end.
    pub fn stray(&self) -> Option<Bad<'a>> {
        let bytes = self.body.as_bytes();
        let stray = |at: usize| bytes[at] == 0 || bytes[at] == b'\r' && bytes.get(at + 1) != Some(&b'\n');
        let at = (0..bytes.len()).find(|&at| bytes[at] < b' ' && stray(at))?;
        let piece = &self.body[at..at + 1];
        let what = match bytes[at] {
            0 => "is a zero byte, and a text has none",
            _ => "is a carriage return without a line feed after it: a line ends with a line feed, or with both",
        };
        Some(Bad::new(piece, format!("{} {what}", Quoted(piece.as_bytes()))))
    }
}

/// The line and the column after a beginning of a text, counted from 1, the column in characters.
pub fn end_of(before: &str) -> (usize, usize) {
    let start = before.rfind('\n').map_or(0, |at| at + 1);
    (before.matches('\n').count() + 1, before[start..].chars().count() + 1)
}

fn says_nothing(line: &str) -> bool {
    let line = line.trim_start();
    line.is_empty() || line.starts_with('#')
}

// Whether a line that begins a list of changes, or goes on with one, ends with a comma.
fn ends_with_comma(line: &str) -> bool {
    line.trim_end().ends_with(',')
}

fn begins_changes(line: &str) -> bool {
    line.contains(':') && !line.contains('=') && !says_nothing(line)
}

/// The lines of a text. After a comma at the end of its line a list of changes goes on in the next, unless that says nothing or is
/// a signal's: so a comma too many spoils no line but its own.
pub struct Lines<'a> {
    rest: &'a str,
    number: usize,
}

impl<'a> Lines<'a> {
    pub fn of(text: &'a str) -> Lines<'a> {
        Lines { rest: text, number: 1 }
    }
}

impl<'a> Iterator for Lines<'a> {
    type Item = Line<'a>;

    fn next(&mut self) -> Option<Line<'a>> {
        let mut lines = self.rest.split_inclusive('\n');
        let first = lines.next()?;
        let (mut length, mut count) = (first.len(), 1);
        let mut goes_on = ends_with_comma(first) && begins_changes(first);
        while goes_on {
            let Some(line) = lines.next().filter(|line| !says_nothing(line) && !line.contains([':', '='])) else { break };
            (length, count) = (length + line.len(), count + 1);
            goes_on = ends_with_comma(line);
        }
        let (whole, rest) = self.rest.split_at(length);
        let body = whole.strip_suffix('\n').unwrap_or(whole);
        let body = body.strip_suffix('\r').unwrap_or(body);
        let line = Line { number: self.number, body, end: &whole[body.len()..] };
        (self.rest, self.number) = (rest, self.number + count);
        Some(line)
    }
}
