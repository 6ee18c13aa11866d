//! Where a sheet is refused: at which byte, in which signal, at which word. The library judges; the place is found by asking it of the
//! sheet's beginnings.
use crate::quoting::{Quoted, QUOTED};
use crate::sheet::{words, FRONT, NAME};
use crate::{calls, text, Fault, LIST_WORDS};
use std::borrow::Cow;
use std::fmt;

/// Why bytes are no sheet, and where. It prints as one line in words.
///
/// ```
/// # use rascrunel::whereabouts::sheet_refusal;
/// let mut bytes = *b"SGL\x01\0\x01\0a\0\0\0\0\0\0\0\x02\0\0\0\0\0\x17\0\0\0";
/// assert!(sheet_refusal(&bytes).is_none());
/// bytes[17] = 2;
/// let refusal = sheet_refusal(&bytes).unwrap();
/// assert_eq!((refusal.fault.number(), refusal.byte), (17, 17));
/// assert_eq!(refusal.signal.unwrap().number, 1);
/// assert_eq!(refusal.word.unwrap().value, 2);
/// ```
#[derive(Clone, Debug, PartialEq, Eq)]
#[non_exhaustive]
pub struct SheetRefusal {
    /// The fault of the sheet, of 14 to 17.
    pub fault: Fault,
    /// The byte at which it is met, counted from 0: the first of the field that is wrong, or the number of bytes where the sheet is cut.
    pub byte: usize,
    /// The signal in which it is met, where it is in one.
    pub signal: Option<SignalPlace>,
    /// The word at which it is met, where the fault is of one.
    pub word: Option<WordPlace>,
    /// What is wrong there.
    pub why: Why,
}

/// A signal on a sheet.
#[derive(Clone, Debug, PartialEq, Eq)]
#[non_exhaustive]
pub struct SignalPlace {
    /// Its number, counted from 1.
    pub number: usize,
    /// How many signals the sheet says that it has.
    pub of: usize,
    /// The bytes of its name as they stand, without the zeros at their end.
    pub name: Vec<u8>,
}

/// A word of a list.
#[derive(Clone, Copy, Debug, PartialEq, Eq)]
#[non_exhaustive]
pub struct WordPlace {
    /// Its number, counted from 1.
    pub number: usize,
    /// How many words the list has.
    pub of: usize,
    /// The word.
    pub value: u32,
    /// The word before it, 0 before the first.
    pub before: u32,
    /// Which rule of lists it breaks: 2, 3 or 4.
    pub fault: Fault,
}

/// What is wrong with a sheet.
#[derive(Clone, Debug, PartialEq, Eq)]
#[non_exhaustive]
pub enum Why {
    /// It has no bytes.
    Empty,
    /// It is a text, of which `sheet make` may make a sheet; the beginning of its first line.
    Text(Vec<u8>),
    /// It does not begin as a sheet does; its first bytes.
    Mark(Vec<u8>),
    /// It is of another version.
    Version(u16),
    /// It ends inside this field.
    Cut(Field),
    /// It says that it has so many signals, which is too many.
    Signals(usize),
    /// So many bytes stand after its last signal.
    TooLong(usize),
    /// The name breaks the rule of names.
    Name,
    /// The name is that of an earlier signal, of this number.
    Repeated(usize),
    /// The list has so many words: none, or too many.
    Words(usize),
    /// The word breaks the rules of lists.
    Word,
    /// What the library knows, and this version of the bindings does not.
    Other,
}

/// A field of a sheet in which it ends.
#[derive(Clone, Copy, Debug, PartialEq, Eq)]
#[non_exhaustive]
pub enum Field {
    /// The mark.
    Mark,
    /// The version.
    Version,
    /// The count of signals.
    Count,
    /// A signal's name.
    Name,
    /// A signal's count of words.
    WordCount,
    /// A signal's word, by its number from 1, of so many.
    Word(usize, usize),
}

// Where the mark and the version end, and a signal's fields before its words: name and count of words.
const MARK: usize = 3;
const VERSION: usize = 5;
const HEAD: usize = NAME + 2;

fn low16(bytes: &[u8], at: usize) -> usize {
    u16::from_le_bytes([bytes[at], bytes[at + 1]]).into()
}

/// Why these bytes are no sheet, and where; none where they are one.
///
/// ```
/// # use rascrunel::whereabouts::sheet_refusal;
/// let refusal = sheet_refusal(b"needle : down, up from 150\n").unwrap();
/// assert!(refusal.to_string().contains("sheet make"));
/// ```
pub fn sheet_refusal(bytes: &[u8]) -> Option<SheetRefusal> {
    let fault = calls::sheet_fault(bytes).err()?;
    Some(front_refusal(bytes, fault).unwrap_or_else(|| signals_refusal(bytes, fault)))
}

fn refusal(fault: Fault, byte: usize, why: Why) -> SheetRefusal {
    SheetRefusal { fault, byte, signal: None, word: None, why }
}

// What is wrong with the mark, the version or the count, where it is these that are refused.
fn front_refusal(bytes: &[u8], fault: Fault) -> Option<SheetRefusal> {
    let mut empty = [0; FRONT];
    calls::begin(&mut empty).ok()?;
    let cut = |field| Some(refusal(fault, bytes.len(), Why::Cut(field)));
    let marked = bytes.len().min(MARK);
    if bytes.is_empty() {
        return Some(refusal(fault, 0, Why::Empty));
    }
    if bytes[..marked] != empty[..marked] {
        let why = match text_line(bytes) {
            Some(line) => Why::Text(line),
            None => Why::Mark(bytes[..bytes.len().min(NAME)].to_vec()),
        };
        return Some(refusal(fault, 0, why));
    }
    if bytes.len() < MARK {
        return cut(Field::Mark);
    }
    if bytes.len() < VERSION {
        return cut(Field::Version);
    }
    if bytes[MARK..VERSION] != empty[MARK..VERSION] {
        return Some(refusal(fault, MARK, Why::Version(low16(bytes, MARK) as u16)));
    }
    if bytes.len() < FRONT {
        return cut(Field::Count);
    }
    // with a signal after it whose name is none, which is refused with 16 where the count is not refused before it
    let count = low16(bytes, VERSION);
    let nameless = [&bytes[..FRONT], &[0; HEAD]].concat();
    if count > 0 && calls::sheet_fault(&nameless) == Err(Fault::SheetSize) {
        return Some(refusal(fault, VERSION, Why::Signals(count)));
    }
    None
}

// So many bytes tell whether a file is a text.
const TEXT_BYTES: usize = 4096;

// What is told of the first line of bytes that are a text, in UTF-8 or as older machines write one: without control characters, but for
// those that part words and lines.
fn text_line(bytes: &[u8]) -> Option<Vec<u8>> {
    let start = &bytes[..bytes.len().min(TEXT_BYTES)];
    let text = if text::is_utf16(start) {
        Cow::Owned(of_utf16(start).into_bytes())
    } else {
        Cow::Borrowed(start.strip_prefix(text::BYTE_ORDER_MARK.as_bytes()).unwrap_or(start))
    };
    if text.iter().any(|b| b.is_ascii_control() && !matches!(b, b'\t' | b'\r' | b'\n')) {
        return None;
    }
    let line = text.split(|b| matches!(b, b'\r' | b'\n')).find(|line| !line.trim_ascii().is_empty())?;
    // one character more than is quoted, in as many bytes as it may have: so it is seen that there are more
    Some(line[..line.len().min(4 * (QUOTED + 1))].to_vec())
}

// The text after a byte order mark of UTF-16.
fn of_utf16(bytes: &[u8]) -> String {
    let unit = if bytes.starts_with(&[0xff]) { u16::from_le_bytes } else { u16::from_be_bytes };
    let units = bytes.chunks_exact(2).skip(1).map(|pair| unit([pair[0], pair[1]]));
    char::decode_utf16(units).map(|c| c.unwrap_or(char::REPLACEMENT_CHARACTER)).collect()
}

// The sheet of the first signals, whose bytes end here: with the count that they are.
fn beginning(bytes: &[u8], end: usize, signals: usize) -> Vec<u8> {
    let mut sheet = bytes[..end].to_vec();
    sheet[VERSION..FRONT].copy_from_slice(&(signals as u16).to_le_bytes());
    sheet
}

// The first signal with which the sheet is refused, its front being good.
fn signals_refusal(bytes: &[u8], fault: Fault) -> SheetRefusal {
    let count = low16(bytes, VERSION);
    let mut starts = Vec::new();
    let mut at = FRONT;
    for number in 1..=count {
        let rest = &bytes[at..];
        let words = if rest.len() < HEAD { 0 } else { low16(rest, NAME) };
        let end = bytes.len().min(at + HEAD + 4 * words);
        if let Err(fault) = calls::sheet_fault(&beginning(bytes, end, number)) {
            let field = &rest[..rest.len().min(NAME)];
            let name = field[..field.iter().rposition(|&b| b != 0).map_or(0, |last| last + 1)].to_vec();
            let signal = SignalPlace { number, of: count, name };
            return SheetRefusal { signal: Some(signal), ..signal_refusal(bytes, at, end, &starts, fault) };
        }
        starts.push(at);
        at = end;
    }
    let why = if at < bytes.len() { Why::TooLong(bytes.len() - at) } else { Why::Other };
    refusal(fault, at, why)
}

// What is wrong with a signal that stands from a byte up to another, the earlier ones being good.
fn signal_refusal(bytes: &[u8], at: usize, end: usize, earlier: &[usize], fault: Fault) -> SheetRefusal {
    let signal = &bytes[at..end];
    match fault {
        Fault::SheetSize => {
            let field = match signal.len() {
                have if have < NAME => Field::Name,
                have if have < HEAD => Field::WordCount,
                have => Field::Word((have - HEAD) / 4 + 1, low16(signal, NAME)),
            };
            refusal(fault, bytes.len(), Why::Cut(field))
        }
        Fault::Name => {
            let name = &signal[..NAME];
            let first = earlier.iter().position(|&start| &bytes[start..start + NAME] == name);
            refusal(fault, at, first.map_or(Why::Name, |i| Why::Repeated(i + 1)))
        }
        Fault::SheetList => {
            let count = low16(signal, NAME);
            let words = words(&signal[HEAD..]);
            // that they are too few or too many is judged before any of them
            if calls::list_fault(&vec![0; count]) == Err(Fault::ListLength) {
                return refusal(fault, at + NAME, Why::Words(count));
            }
            let Some(word) = WordPlace::found(&words, calls::list_fault) else { return refusal(fault, at + HEAD, Why::Other) };
            // as long as the sheet says, also where it is cut after the word
            let word = WordPlace { of: count, ..word };
            SheetRefusal { word: Some(word), ..refusal(fault, at + HEAD + 4 * (word.number - 1), Why::Word) }
        }
        _ => refusal(fault, at, Why::Other),
    }
}

/// The number of the first word, counted from 1, with which the beginning of a list is refused, and the fault; none for an accepted list.
/// Of no words it is word 1.
pub fn word_refusal(words: &[u32]) -> Option<(usize, Fault)> {
    let fault = calls::list_fault(words).err()?;
    Some((WordPlace::found(words, calls::list_fault).map_or(1, |place| place.number), fault))
}

impl WordPlace {
    /// The first word with which the beginning of a list is refused as the list is, by a call that judges lists; none for an accepted
    /// list and for one without words.
    pub(crate) fn found(words: &[u32], judge: impl Fn(&[u32]) -> Result<(), Fault>) -> Option<WordPlace> {
        let fault = judge(words).err()?;
        let number = (1..=words.len()).find(|&m| judge(&words[..m]) == Err(fault))?;
        let before = if number == 1 { 0 } else { words[number - 2] };
        Some(WordPlace { number, of: words.len(), value: words[number - 1], before, fault })
    }
}

// The rule that a word breaks.
impl fmt::Display for WordPlace {
    fn fmt(&self, f: &mut fmt::Formatter<'_>) -> fmt::Result {
        let date = self.value / 4;
        match self.fault {
            Fault::FirstWord => write!(f, "the first word is 0 or 1"),
            Fault::DateOrder if self.number == 2 => write!(f, "its date is {date}, and dates begin at 1"),
            Fault::DateOrder => write!(f, "its date, {date}, is not above the last, {}", self.before / 4),
            Fault::NoChange => {
                let value = if self.value % 2 == 1 { "up" } else { "down" };
                write!(f, "it changes nothing, before its date, {date}, the signal is {value} already")
            }
            fault => write!(f, "{}", fault.text()),
        }
    }
}

impl fmt::Display for Field {
    fn fmt(&self, f: &mut fmt::Formatter<'_>) -> fmt::Result {
        match self {
            Field::Mark => write!(f, "its mark"),
            Field::Version => write!(f, "its version"),
            Field::Count => write!(f, "its count of signals"),
            Field::Name => write!(f, "the name"),
            Field::WordCount => write!(f, "the count of words"),
            Field::Word(number, of) => write!(f, "word {number} of {of}"),
        }
    }
}

impl fmt::Display for SheetRefusal {
    fn fmt(&self, f: &mut fmt::Formatter<'_>) -> fmt::Result {
        write!(f, "refused {}: ", self.fault.number())?;
        let byte = self.byte;
        match &self.signal {
            // what stands of a name that is cut is not the name
            Some(signal) if self.why == Why::Cut(Field::Name) => write!(f, "signal {} of {}: ", signal.number, signal.of)?,
            Some(signal) => write!(f, "signal {} of {}, {}: ", signal.number, signal.of, Quoted(&signal.name))?,
            None => {}
        }
        match &self.why {
            Why::Empty => write!(f, "no sheet: it is empty"),
            Why::Text(line) => {
                write!(f, "a text and no sheet, it begins {}; `sheet make TEXT SHEET` makes a sheet of a text", Quoted(line))
            }
            Why::Mark(first) => write!(f, "no sheet: it begins with {}, not with \"SGL\"", Quoted(first)),
            Why::Version(version) => write!(f, "a sheet of version {version}, not 1, at byte {byte}"),
            Why::Cut(field) => write!(f, "the sheet is cut, it ends at byte {byte} in {field}"),
            Why::Signals(count) => write!(f, "{count} signals, over 32, at byte {byte}"),
            Why::TooLong(1) => write!(f, "1 byte too many after the last signal, at byte {byte}"),
            Why::TooLong(more) => write!(f, "{more} bytes too many after the last signal, from byte {byte} on"),
            Why::Name => {
                write!(f, "its name, at byte {byte}, is none: 1 to 8 lowercase letters and digits, a letter first, then zero bytes")
            }
            Why::Repeated(first) => write!(f, "its name, at byte {byte}, is that of signal {first}"),
            Why::Words(0) => write!(f, "a list without words, at byte {byte}"),
            Why::Words(count) => write!(f, "a list of {count} words, over {LIST_WORDS}, at byte {byte}"),
            Why::Word => match &self.word {
                Some(word) => write!(f, "word {} of {}, at byte {byte}, is {}: {word}", word.number, word.of, word.value),
                None => write!(f, "{}, at byte {byte}", self.fault.text()),
            },
            Why::Other => write!(f, "{}, at byte {byte}", self.fault.text()),
        }
    }
}

impl std::error::Error for SheetRefusal {}
