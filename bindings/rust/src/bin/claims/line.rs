//! The lines of a drawer: SHEET F G, or SHEET F G EXPECTED, parted by blanks.
use rascrunel::quoting::Quoted;
use rascrunel::{Fault, Verdict};

/// A claim as its line has it.
pub struct Claim<'a> {
    pub line: usize,
    pub sheet: &'a [u8],
    pub f: &'a [u8],
    pub g: &'a [u8],
    /// A verdict or a beginning of one, with one blank between its words.
    pub expected: Option<String>,
    // where the sheet stands in its line
    column: usize,
}

/// What hinders a line from being run.
pub struct Trouble {
    pub line: usize,
    /// In characters, counted from 1.
    pub column: usize,
    pub what: String,
}

impl Claim<'_> {
    pub fn trouble(&self, what: &str) -> Trouble {
        Trouble { line: self.line, column: self.column, what: what.to_string() }
    }
}

// The lines with their numbers, without what ends them; a byte order mark at the start is none of the first.
fn numbered(bytes: &[u8]) -> impl Iterator<Item = (usize, &[u8])> {
    let bytes = bytes.strip_prefix("\u{feff}".as_bytes()).unwrap_or(bytes);
    let lines = bytes.split(|&b| b == b'\n').enumerate();
    lines.map(|(i, line)| (i + 1, line.strip_suffix(b"\r").unwrap_or(line)))
}

fn blank(b: u8) -> bool {
    b == b' ' || b == b'\t'
}

fn says_something(line: &[u8]) -> bool {
    line.iter().find(|&&b| !blank(b)).is_some_and(|&b| b != b'#')
}

/// How many lines say something.
pub fn count(bytes: &[u8]) -> usize {
    numbered(bytes).filter(|(_, line)| says_something(line)).count()
}

/// What the lines say that say something.
pub fn lines(bytes: &[u8]) -> impl Iterator<Item = Result<Claim<'_>, Trouble>> {
    numbered(bytes).filter(|(_, line)| says_something(line)).map(|(number, line)| read(number, line))
}

// The words of a line, each with the place of its first byte.
fn words(line: &[u8]) -> Vec<(usize, &[u8])> {
    let mut words = Vec::new();
    let mut at = 0;
    for piece in line.split(|&b| blank(b)) {
        if !piece.is_empty() {
            words.push((at, piece));
        }
        at += piece.len() + 1;
    }
    words
}

// The column of a byte: the characters before it, a byte that is part of none being one.
fn column(line: &[u8], at: usize) -> usize {
    1 + line[..at].utf8_chunks().map(|chunk| chunk.valid().chars().count() + chunk.invalid().len()).sum::<usize>()
}

fn read(number: usize, line: &[u8]) -> Result<Claim<'_>, Trouble> {
    let words = words(line);
    let trouble = |at, what| Trouble { line: number, column: column(line, at), what };
    let [(at, sheet), (_, f), (_, g), expected @ ..] = words.as_slice() else {
        let end = words.last().map_or(0, |(at, word)| at + word.len());
        let missing = ["SHEET", "F", "G"][words.len().min(2)];
        return Err(trouble(end, format!("{missing} is missing: a line is SHEET F G, and EXPECTED where one is")));
    };
    let mut said = String::new();
    for &(at, word) in expected {
        let longer = [said.as_str(), &String::from_utf8_lossy(word)].join(if said.is_empty() { "" } else { " " });
        if !begins_a_verdict(&longer) {
            let what =
                "a verdict is `holds`, `refused N`, or `fails at K` or `fails after K` with `until J`, `until before J` or `for good`";
            return Err(trouble(at, format!("{} in what is expected: {what}, or a beginning of one", Quoted(word))));
        }
        said = longer;
    }
    let expected = (!said.is_empty()).then_some(said);
    Ok(Claim { line: number, sheet, f, g, expected, column: column(line, *at) })
}

// Whether these are the first words of the line of some verdict: one of these ends makes such a line of them.
fn begins_a_verdict(words: &str) -> bool {
    const ENDS: [&str; 6] = ["", " 1", " good", " for good", " 1 for good", " at 1 for good"];
    ENDS.iter().any(|end| is_verdict(&format!("{words}{end}")))
}

fn is_verdict(line: &str) -> bool {
    line.parse::<Verdict>().is_ok() || line.parse::<Fault>().is_ok()
}

/// Whether a verdict's line begins with these words.
pub fn meets(line: &str, expected: &str) -> bool {
    line.strip_prefix(expected).is_some_and(|rest| rest.is_empty() || rest.starts_with(' '))
}
