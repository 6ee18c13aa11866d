//! The line of a signal: its name and its list. What a text cannot say as words is told here; the library judges the words and the name,
//! and where it refuses them it is asked again, of their beginnings, to find the place.
use super::lines::Bad;
use crate::quoting::Quoted;
use crate::whereabouts::WordPlace;
use crate::{calls, Fault, Sheet, LIST_WORDS, M};

#[derive(Clone, Copy)]
pub enum Notation {
    Words,
    Changes,
}

pub struct Signal<'a> {
    pub name: &'a str,
    pub notation: Notation,
    list: &'a str,
}

fn quoted(piece: &str) -> Quoted<'_> {
    Quoted(piece.as_bytes())
}

impl<'a> Signal<'a> {
    pub fn new(line: &'a str) -> Result<Signal<'a>, Bad<'a>> {
        // the lines after the first belong to the list
        let first = line.split('\n').next().unwrap_or(line);
        let (at, notation) = match (first.find('='), first.find(':')) {
            (Some(at), _) => (at, Notation::Words),
            (None, Some(at)) => (at, Notation::Changes),
            (None, None) => {
                let piece = line.trim();
                return Err(Bad::new(piece, format!("{} is neither `NAME : changes` nor `NAME = words`", quoted(piece))));
            }
        };
        Ok(Signal { name: line[..at].trim(), notation, list: &line[at + 1..] })
    }

    /// The signal without a name that has these changes.
    pub fn of_changes(changes: &'a str) -> Signal<'a> {
        Signal { name: "", notation: Notation::Changes, list: changes }
    }

    /// The words that the list says, not judged.
    pub fn words(&self) -> Result<Vec<u32>, Bad<'a>> {
        match self.notation {
            Notation::Words => self.list.split_whitespace().map(word).collect(),
            Notation::Changes => {
                let mut words = Vec::new();
                for piece in self.list.split(',') {
                    words.push(change(piece.trim(), words.last().copied())?);
                }
                Ok(words)
            }
        }
    }

    // The piece of the list that says a word, counted from 1.
    fn piece(&self, number: usize) -> &'a str {
        let piece = match self.notation {
            Notation::Words => self.list.split_whitespace().nth(number - 1),
            Notation::Changes => self.list.split(',').nth(number - 1).map(str::trim),
        };
        piece.unwrap_or(self.list.trim())
    }

    /// What is wrong with the words of the list, which this call refuses with this fault.
    pub fn refused(&self, words: &[u32], fault: Fault, judge: impl Fn(&[u32]) -> Result<(), Fault>) -> Bad<'a> {
        let Some(place) = WordPlace::found(words, judge) else {
            return Bad { piece: self.piece(1), fault: Some(fault), what: "the list is empty: it has at least one word".to_string() };
        };
        let piece = self.piece(place.number);
        let (told, level) = (quoted(piece), ["down", "up"][place.before as usize % 2]);
        let what = match (self.notation, fault) {
            (_, Fault::ListLength) => format!("{told} is number {} of its list, which has at most {LIST_WORDS}", place.number),
            (Notation::Changes, Fault::DateOrder) if place.number == 2 => format!("the date of {told} is 0, and dates begin at 1"),
            (Notation::Changes, Fault::DateOrder) => {
                let (date, last) = (place.before / 4, quoted(self.piece(place.number - 1)));
                format!("the date of {told} is not above {date}, that of {last} before it")
            }
            (Notation::Changes, Fault::NoChange) => format!("{told} changes nothing: the signal is {level} already"),
            _ => format!("the word {told}: {place}"),
        };
        Bad { piece, fault: Some(fault), what }
    }

    /// Why the signal, with a list that is accepted, is not appended to a sheet of these names, each with its line. A sheet that is full
    /// has only the first of them.
    pub fn name_refused(&self, fault: Fault, names: &[(&str, usize)]) -> Bad<'a> {
        let told = quoted(self.name);
        let what = match fault {
            Fault::Name => match names.iter().find(|(name, _)| *name == self.name) {
                Some((_, line)) => format!("the name {told} is that of line {line} already"),
                None => format!("the name {told} {}: a name is 1 to 8 lowercase letters and digits, a letter first", malformed(self.name)),
            },
            Fault::SheetSize => format!("{told} is signal {}, and a sheet has at most 32", names.len() + 1),
            _ => fault.text().to_string(),
        };
        Bad { piece: self.name, fault: Some(fault), what }
    }
}

// Whether the library takes a name for one: looked up on the sheet without signals, it is just not there.
fn is_name(name: &str) -> bool {
    Sheet::begin().and_then(|empty| calls::lookup(empty.bytes(), name.as_bytes())) != Err(Fault::Name)
}

// What is wrong with a name that is refused: the first letter with which its beginning is, and whether it is refused elsewhere too.
fn malformed(name: &str) -> String {
    let ends = name.char_indices().map(|(at, letter)| (at, letter, &name[..at + letter.len_utf8()]));
    match ends.clone().find(|(_, _, beginning)| !is_name(beginning)) {
        None => "is empty".to_string(),
        Some((_, '\u{feff}', _)) => "has a byte order mark in it, which stands at the start of a text only".to_string(),
        Some((_, letter, _)) if !is_name(&format!("a{letter}")) => format!("has {} in it", quoted(&letter.to_string())),
        Some((0, letter, _)) => format!("begins with {}", quoted(&letter.to_string())),
        Some(_) => format!("has {} characters", ends.count()),
    }
}

fn in_digits(text: &str) -> bool {
    !text.is_empty() && text.bytes().all(|byte| byte.is_ascii_digit())
}

fn word(text: &str) -> Result<u32, Bad<'_>> {
    let bad = |what: String| Err(Bad::new(text, what));
    match text.parse() {
        _ if !in_digits(text) => bad(format!("{} is no word: a word is a number in digits", quoted(text))),
        Ok(word) => Ok(word),
        Err(_) => bad(format!("the word {} is above {}: its date is above M = {M}", quoted(text), u32::MAX)),
    }
}

fn date<'a>(text: &'a str, change: &str) -> Result<u32, Bad<'a>> {
    let bad = |what: String| Err(Bad::new(text, what));
    match text.parse() {
        _ if !in_digits(text) => bad(format!("{} in {} is no date: a date is a number in digits", quoted(text), quoted(change))),
        Ok(date) if date <= M => Ok(date),
        _ => bad(format!("the date {} is above M = {M}", quoted(text))),
    }
}

// The word of a change after the word before it, the first after none.
fn change(change: &str, before: Option<u32>) -> Result<u32, Bad<'_>> {
    let told = quoted(change);
    let bad = |piece, what: String| Err(Bad::new(piece, what));
    let mut parts = change.split_whitespace();
    let to = match parts.next() {
        Some("up") => 1,
        Some("down") => 0,
        None => return bad(change, "a change is missing here".to_string()),
        Some(part) => {
            let of = if part == change { String::new() } else { format!(" in {told}") };
            let hint = match before {
                _ if !in_digits(part) => "",
                None => "; words are given as `NAME = words`",
                Some(_) => "; a number has no comma in it",
            };
            return bad(change, format!("{}{of} is neither `up` nor `down`{hint}", quoted(part)));
        }
    };
    let how = parts.next();
    let Some(before) = before else {
        return match how {
            None => Ok(to),
            Some(_) => bad(change, format!("{told} is the first change, which is `up` or `down` alone")),
        };
    };
    let before = before % 2;
    let (at, after) = match how {
        Some("from") => (to, to),
        Some("after") => (before, to),
        Some("at") => (to, before),
        Some(word) => return bad(word, format!("{} in {told} is none of `from`, `after` and `at`", quoted(word))),
        None => return bad(change, format!("{told} has neither `from`, `after` nor `at`, nor a date, as only the first change may")),
    };
    let Some(when) = parts.next() else {
        return bad(change, format!("{told} has no date"));
    };
    let date = date(when, change)?;
    match parts.next() {
        None => Ok(4 * date + 2 * at + after),
        Some(more) => bad(more, format!("{} in {told} is too much: a change ends with its date", quoted(more))),
    }
}
