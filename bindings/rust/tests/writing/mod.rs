// Texts of random signals in any style, with the place of every piece, and texts with something wrong in them, with what is to be told.
use crate::random::{later, Random};
use rascrunel::{text, M};

/// A signal as it is to be written: its list as pieces, changes or words, each of parts with blanks between them.
pub struct Signal {
    pub name: String,
    pub words: Vec<u32>,
    /// `:`, `=`, or a blank for a line that has neither.
    sign: char,
    pieces: Vec<Vec<String>>,
}

fn level(value: u32) -> &'static str {
    ["down", "up"][value as usize % 2]
}

fn change(level: &str, how: &str, date: impl ToString) -> Vec<String> {
    vec![level.to_string(), how.to_string(), date.to_string()]
}

// With zeros before it now and then, which say nothing.
fn number(random: &mut Random, number: u32) -> String {
    format!("{}{number}", ["", "", "", "0", "000"][random.below(5) as usize])
}

fn changes_of(random: &mut Random, words: &[u32]) -> Vec<Vec<String>> {
    let mut pieces = vec![vec![level(words[0]).to_string()]];
    for pair in words.windows(2) {
        let (date, at, after) = (number(random, pair[1] / 4), pair[1] / 2 % 2, pair[1] % 2);
        pieces.push(match (pair[0] % 2, at, after) {
            (0, 1, 1) | (1, 0, 0) => change(level(after), "from", date),
            (0, 0, 1) | (1, 1, 0) => change(level(after), "after", date),
            _ => change(level(at), "at", date),
        });
    }
    pieces
}

impl Signal {
    pub fn new(random: &mut Random, name: String, words: Vec<u32>) -> Signal {
        let sign = [':', ':', '='][random.below(3) as usize];
        let pieces = match sign {
            ':' => changes_of(random, &words),
            _ => words.iter().map(|word| vec![number(random, *word)]).collect(),
        };
        Signal { name, words, sign, pieces }
    }
}

/// A list of so many words that changes at every date up to a last one.
pub fn words_of(count: u32, last: u32) -> Vec<u32> {
    (0..count).map(|i| if i == 0 { 0 } else { 4 * (last + 1 + i - count) + 3 * (i % 2) }).collect()
}

fn some_words(random: &mut Random) -> Vec<u32> {
    let most = [1, 3, 3, 6, 6, 6, 12, 12, 40, 256][random.below(10) as usize];
    let (count, step) = (1 + random.below(most), [1, 3, 40, 4_000_000][random.below(4) as usize]);
    let words = random.list(count as usize, step);
    let room = M - words[words.len() - 1] / 4;
    let by = [0, room, random.below(room + 1)][random.below(3) as usize];
    later(&words, by)
}

fn some_name(random: &mut Random, others: &[Signal]) -> String {
    const LETTERS: &[u8] = b"abcdefghijklmnopqrstuvwxyz0123456789";
    loop {
        let rest = random.below(8);
        let name: String = (0..=rest).map(|i| LETTERS[random.below(if i == 0 { 26 } else { 36 }) as usize] as char).collect();
        if others.iter().all(|other| other.name != name) {
            return name;
        }
    }
}

/// Fewer signals than this, with names of their own.
pub fn some_signals(random: &mut Random, below: u32) -> Vec<Signal> {
    let mut signals = Vec::new();
    for _ in 0..random.below(below) {
        let (name, words) = (some_name(random, &signals), some_words(random));
        signals.push(Signal::new(random, name, words));
    }
    signals
}

/// A line and a column.
type Place = (usize, usize);

/// A text, and of each of its signals where its pieces stand.
pub struct Written {
    pub text: String,
    line: usize,
    column: usize,
    names: Vec<Place>,
    /// After the signs.
    signs: Vec<Place>,
    parts: Vec<Vec<Vec<Place>>>,
    /// The pieces as they were written, with the blanks in them.
    pieces: Vec<Vec<String>>,
}

impl Written {
    // Puts a piece and tells where it begins.
    fn put(&mut self, piece: &str) -> Place {
        let place = (self.line, self.column);
        for letter in piece.chars() {
            self.text.push(letter);
            self.column += 1;
            if letter == '\n' {
                (self.line, self.column) = (self.line + 1, 1);
            }
        }
        place
    }

    fn put_blanks(&mut self, random: &mut Random, least: usize) {
        // the last two are of more bytes than one
        let blanks = ["", "", " ", " ", "  ", "\t", " \t ", "\u{a0}", " \u{3000}"];
        self.put(blanks[2 * least + random.below(9 - 2 * least as u32) as usize]);
    }

    fn put_signal(&mut self, random: &mut Random, signal: &Signal, end: &str) {
        if !signal.name.is_empty() {
            self.put_blanks(random, 0);
        }
        let name = self.put(&signal.name);
        self.names.push(name);
        self.put_blanks(random, usize::from(signal.sign == ' '));
        self.put(&signal.sign.to_string());
        self.signs.push((self.line, self.column));
        let (mut places, mut pieces) = (Vec::new(), Vec::new());
        for (i, parts) in signal.pieces.iter().enumerate() {
            let is_empty = parts.concat().is_empty();
            if i > 0 && signal.sign != '=' {
                self.put(",");
                if signal.sign == ':' && !is_empty && random.below(6) == 0 {
                    self.put_blanks(random, 0);
                    self.put(end);
                }
            }
            if !is_empty {
                self.put_blanks(random, usize::from(i > 0 && signal.sign == '='));
            }
            let start = self.text.len();
            let mut part_places = Vec::new();
            for (k, part) in parts.iter().enumerate() {
                if k > 0 {
                    self.put_blanks(random, 1);
                }
                part_places.push(self.put(part));
            }
            places.push(part_places);
            pieces.push(self.text[start..].to_string());
            if i + 1 < signal.pieces.len() && signal.sign != '=' && !is_empty {
                self.put_blanks(random, 0);
            }
        }
        self.put_blanks(random, 0);
        self.parts.push(places);
        self.pieces.push(pieces);
    }
}

/// The text of signals in any style, with or without a byte order mark, with comments and with either end of lines.
pub fn write(random: &mut Random, signals: &[Signal]) -> Written {
    let mut text = Written {
        text: ["", "", "\u{feff}"][random.below(3) as usize].to_string(),
        line: 1,
        column: 1,
        names: Vec::new(),
        signs: Vec::new(),
        parts: Vec::new(),
        pieces: Vec::new(),
    };
    let end = ["\n", "\r\n"][random.below(2) as usize];
    let fillers = ["", "#", "  # a : sideways, up from", "\t ", "# über = \u{feff} 0 2,"];
    for (i, signal) in signals.iter().enumerate() {
        for _ in 0..random.below(3) {
            text.put(fillers[random.below(5) as usize]);
            text.put(end);
        }
        text.put_signal(random, signal, end);
        if i + 1 < signals.len() || random.below(3) > 0 {
            text.put(end);
        }
    }
    text
}

enum At {
    Name(usize),
    Sign(usize),
    Part(usize, usize, usize),
}

/// What is wrong with a text, and what is to be told of it.
pub struct Broken {
    pub kind: &'static str,
    at: At,
    fault: Option<u32>,
    says: Vec<String>,
    /// Pieces that are to be quoted, by the signal's number and theirs.
    quotes: Vec<(usize, usize)>,
    /// A signal whose line is to be told.
    line_of: Option<usize>,
}

/// How many kinds there are.
pub const KINDS: usize = 28;

fn quoted(piece: &str) -> String {
    match piece.char_indices().nth(60) {
        Some((end, _)) => format!("{:?}..", &piece[..end]),
        None => format!("{piece:?}"),
    }
}

impl Broken {
    fn new(kind: &'static str, at: At, fault: Option<u32>, says: &[&str]) -> Broken {
        Broken { kind, at, fault, says: says.iter().map(|words| words.to_string()).collect(), quotes: Vec::new(), line_of: None }
    }

    fn quoting(self, pieces: &[(usize, usize)]) -> Broken {
        Broken { quotes: pieces.to_vec(), ..self }
    }

    pub fn place(&self, written: &Written) -> (usize, usize) {
        match self.at {
            At::Name(s) => written.names[s],
            At::Sign(s) => written.signs[s],
            At::Part(s, m, k) => written.parts[s][m][k],
        }
    }

    /// Whether it is wrong to be tidied too.
    pub fn of_tidying(&self) -> bool {
        !matches!(self.fault, Some(4 | 15 | 16))
    }

    /// Fails unless this is what is told.
    pub fn told(&self, wrong: &text::Wrong, written: &Written) {
        let context = || format!("{}: {wrong}\n{}", self.kind, written.text);
        assert_eq!((wrong.line, wrong.column), self.place(written), "{}", context());
        assert_eq!(wrong.fault.map(|fault| fault.number()), self.fault, "{}", context());
        let line_of = self.line_of.map(|s| format!("is that of line {} already", written.names[s].0));
        let quotes = self.quotes.iter().map(|&(s, m)| quoted(&written.pieces[s][m]));
        for words in self.says.iter().cloned().chain(line_of).chain(quotes) {
            assert!(wrong.what.contains(&words), "{words}: {}", context());
        }
    }
}

fn one_of<'a>(random: &mut Random, words: &[&'a str]) -> &'a str {
    words[random.below(words.len() as u32) as usize]
}

fn no_number(random: &mut Random) -> String {
    one_of(random, &["5x", "+5", "-5", "0x5", "1e3", "٣", "5.5", "five", "½", "5\u{feff}", "\u{1b}[2J", "'5'", "\"5\""]).to_string()
}

// A number above this one, of up to 70 digits.
fn above(random: &mut Random, most: u32) -> String {
    match random.below(3) {
        0 => (u64::from(most) + 1 + u64::from(random.below(1000))).to_string(),
        1 => format!("{}{}", 1 + random.below(9), "0".repeat(10 + random.below(60) as usize)),
        _ => format!("00{}", u64::from(most) + 1),
    }
}

const HOWS: [&str; 3] = ["from", "after", "at"];

/// Breaks the list of a signal, where the way that is chosen can be gone.
pub fn broken_list(random: &mut Random, signals: &mut [Signal], s: usize) -> Option<Broken> {
    let signal = &mut signals[s];
    let count = signal.pieces.len();
    // both notations
    match random.below(10) {
        0 => {
            let words = words_of(257 + random.below(5), 300 + random.below(M - 300));
            let long = Signal::new(random, signal.name.clone(), words);
            signals[s] = long;
            return Some(Broken::new("long", At::Part(s, 256, 0), Some(1), &["is number 257 of its list"]).quoting(&[(s, 256)]));
        }
        1 => {
            let m = random.below(count as u32) as usize;
            let k = random.below(signal.pieces[m].len() as u32) as usize;
            let (letter, words) =
                [("\r", "\"\\r\" is a carriage return without"), ("\0", "\"\\0\" is a zero byte")][random.below(2) as usize];
            signal.pieces[m][k].insert_str(0, letter);
            return Some(Broken::new("stray", At::Part(s, m, k), None, &[words]));
        }
        _ => {}
    }
    if signal.sign == '=' {
        return broken_words(random, signal, s);
    }
    let way = random.below(13);
    if way == 12 {
        let how = one_of(random, &HOWS);
        signal.pieces[0] = change(level(signal.words[0]), how, 5);
        return Some(Broken::new("first", At::Part(s, 0, 0), None, &["is the first change"]).quoting(&[(s, 0)]));
    }
    if count < 2 {
        return None;
    }
    let m = 1 + random.below(count as u32 - 1) as usize;
    let (before, last) = (signal.words[m - 1] % 2, signal.words[m - 1] / 4);
    let part = |k| At::Part(s, m, k);
    let parts = &mut signal.pieces[m];
    let broken = match way {
        0 => {
            parts[0] = one_of(random, &["Up", "UP", "high", "on", "downn", "u", "升"]).to_string();
            Broken::new("level", part(0), None, &["is neither `up` nor `down`"])
        }
        1 => {
            parts[1] = one_of(random, &["on", "form", "After", "a", "until", "since\u{301}", "\u{1b}"]).to_string();
            Broken::new("how", part(1), None, &[&quoted(&parts[1]), "is none of `from`, `after` and `at`"])
        }
        2 => {
            parts.remove(1);
            Broken::new("no how", part(1), None, &[&quoted(&parts[1]), "is none of `from`, `after` and `at`"])
        }
        3 => {
            parts.truncate(1);
            Broken::new("alone", part(0), None, &["has neither `from`, `after` nor `at`"])
        }
        4 => {
            parts.truncate(2);
            Broken::new("no date", part(0), None, &["has no date"])
        }
        5 => {
            parts[2] = no_number(random);
            Broken::new("no digits", part(2), None, &[&quoted(&parts[2]), "is no date"])
        }
        6 => {
            parts[2] = above(random, M);
            return Some(Broken::new("above", part(2), None, &[&quoted(&parts[2]), "is above M = 1073741823"]));
        }
        7 if m == 1 => {
            parts[2] = number(random, 0);
            Broken::new("zero", part(0), Some(3), &["is 0, and dates begin at 1"])
        }
        8 if m > 1 => {
            let date = random.below(last + 1);
            parts[2] = number(random, date);
            let says = format!("is not above {last}, that of");
            return Some(Broken::new("order", part(0), Some(3), &[&says]).quoting(&[(s, m), (s, m - 1)]));
        }
        9 => {
            let date = parts[2].clone();
            *parts = change(level(before), one_of(random, &HOWS), date);
            let says = format!("changes nothing: the signal is {} already", level(before));
            Broken::new("idle", part(0), Some(4), &[&says, "`sheet tidy`"])
        }
        10 => {
            parts.push(one_of(random, &["6", "and", "up", "ticks"]).to_string());
            Broken::new("too much", part(3), None, &[&quoted(&parts[3]), "is too much"])
        }
        11 => {
            signal.pieces.insert(m, vec![String::new()]);
            return Some(Broken::new("missing", part(0), None, &["a change is missing here"]));
        }
        _ => return None,
    };
    Some(broken.quoting(&[(s, m)]))
}

fn broken_words(random: &mut Random, signal: &mut Signal, s: usize) -> Option<Broken> {
    let m = random.below(signal.words.len() as u32) as usize;
    let part = At::Part(s, m, 0);
    let before = if m == 0 { 0 } else { signal.words[m - 1] };
    let (piece, broken) = match random.below(6) {
        0 => (no_number(random), Broken::new("word digits", part, None, &["is no word"])),
        1 => (above(random, u32::MAX), Broken::new("word above", part, None, &["is above 4294967295", "its date is above M = 1073741823"])),
        2 if m == 0 => {
            let word = [2, u32::MAX, 2 + random.below(100)][random.below(3) as usize];
            (number(random, word), Broken::new("first word", part, Some(2), &["the first word is 0 or 1"]))
        }
        3 if m > 0 => {
            let last = before / 4;
            let word = 4 * if m == 1 { 0 } else { random.below(last + 1) } + random.below(4);
            let says = if m == 1 {
                "its date is 0, and dates".to_string()
            } else {
                format!("its date, {}, is not above the last, {last}", word / 4)
            };
            (number(random, word), Broken::new("word order", part, Some(3), &[&says]))
        }
        4 if m > 0 => {
            let word = signal.words[m] / 4 * 4 + 3 * (before % 2);
            let says = format!("before its date, {}, the signal is {} already", word / 4, level(before));
            (number(random, word), Broken::new("word idle", part, Some(4), &["changes nothing", &says, "`sheet tidy`"]))
        }
        5 => {
            signal.pieces.clear();
            return Some(Broken::new("empty", At::Sign(s), Some(1), &["the list is empty"]));
        }
        _ => return None,
    };
    signal.pieces[m] = vec![piece];
    Some(broken.quoting(&[(s, m)]))
}

/// Breaks something of some signal, where the way that is chosen can be gone.
pub fn broken(random: &mut Random, signals: &mut Vec<Signal>) -> Option<Broken> {
    if signals.is_empty() {
        return None;
    }
    let s = random.below(signals.len() as u32) as usize;
    let letters = signals[s].name.len();
    let name = &mut signals[s].name;
    let broken = match random.below(16) {
        0 => {
            name.clear();
            Broken::new("name empty", At::Name(s), Some(16), &["the name \"\" is empty"])
        }
        1 => {
            name.push_str(&"z9".repeat(8)[..9 - letters + random.below(6) as usize]);
            let says = format!("has {} characters", name.len());
            Broken::new("name long", At::Name(s), Some(16), &[&says, &quoted(name), "1 to 8"])
        }
        2 if letters < 8 => {
            let letter = one_of(
                random,
                &["A", "Z", "-", "_", "ü", "ß", ".", ",", "\u{feff}", "\u{1b}", "\"", "'", "%", "(", "+", " ", "\t", "\u{2028}"],
            );
            // a mark at the start of a text is taken, and a blank before a name says nothing
            let inside = letter == "\u{feff}" || letter.trim().is_empty();
            let at = usize::from(inside) + random.below((letters + 1 - 2 * usize::from(inside)).max(1) as u32) as usize;
            if inside && at >= letters {
                return None;
            }
            name.insert_str(at, letter);
            let says = if letter == "\u{feff}" { "has a byte order mark in it".to_string() } else { format!("has {letter:?} in it") };
            Broken::new("name letter", At::Name(s), Some(16), &[&says, &quoted(name), "lowercase letters and digits"])
        }
        3 if letters < 8 => {
            let digit = random.below(10).to_string();
            name.insert_str(0, &digit);
            Broken::new("name digit", At::Name(s), Some(16), &[&format!("begins with {digit:?}"), &quoted(name), "a letter first"])
        }
        4 if s > 0 => {
            let first = random.below(s as u32) as usize;
            signals[s].name = signals[first].name.clone();
            let says = quoted(&signals[s].name);
            Broken { line_of: Some(first), ..Broken::new("name repeated", At::Name(s), Some(16), &[&says]) }
        }
        5 => {
            while signals.len() < 33 {
                let name = some_name(random, signals);
                signals.push(Signal::new(random, name, vec![1]));
            }
            let says = quoted(&signals[32].name);
            Broken::new("count", At::Name(32), Some(15), &[&says, "is signal 33, and a sheet has at most 32"])
        }
        6 => {
            signals[s].sign = ' ';
            let says = quoted(&signals[s].name);
            Broken::new("no sign", At::Name(s), None, &["is neither `NAME : changes` nor `NAME = words`", &says[..says.len() - 1]])
        }
        _ => return broken_list(random, signals, s),
    };
    Some(broken)
}
