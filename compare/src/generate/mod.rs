//! Sheets, claims, lists and moments by seed: the same ones for the same seed. A word is idle that changes nothing.
mod columns;
mod damage;
mod formulas;
mod lists;

use crate::random::Random;
pub use columns::{chart, over, Chart, MOST_MOMENTS};
use formulas::{Lengths, Writer};
pub use lists::{turns, M, MOST_WORDS};
use lists::{Dates, STEP};

/// The words that a work area needs, and the most that one has here.
const WORK_WORDS: usize = 8192;
pub const MOST_WORK: usize = 10_000;

#[derive(Clone, Copy, PartialEq)]
pub enum Set {
    /// 3 signals of 3 to 16 words.
    Small,
    /// 0 to 32 signals of 1 to 256 words, mostly few; dates and lengths of all kinds.
    Mixed,
    /// 8 signals of 20 to 60 words.
    Medium,
    /// The largest sheet, 32 signals of 256 words that share their dates, with formulas of 31 parts.
    Largest,
}

impl Set {
    pub const ALL: [Set; 4] = [Set::Small, Set::Mixed, Set::Medium, Set::Largest];

    pub fn name(self) -> &'static str {
        match self {
            Set::Small => "small",
            Set::Mixed => "mixed",
            Set::Medium => "medium",
            Set::Largest => "largest",
        }
    }

    /// A generator for this set alone.
    pub fn random(self, seed: u64) -> Random {
        Random(seed ^ (self as u64) << 32)
    }
}

/// A sheet, two formulas, and the words of the work area.
pub struct Claim {
    pub sheet: Vec<u8>,
    pub f: Vec<u8>,
    pub g: Vec<u8>,
    pub work: usize,
}

/// Unlike those of other numbers: a digit stands second or nowhere.
fn name(random: &mut Random, number: usize) -> String {
    let mut name = String::from((b'a' + (number % 26) as u8) as char);
    if number >= 26 {
        name.push('1');
    }
    for _ in 0..random.pick(&[0, 0, 1, 3, 5, 6]) {
        name.push((b'a' + random.below(26) as u8) as char);
    }
    name
}

/// How many words a signal of the set has, and how its dates rise.
fn shape(random: &mut Random, set: Set) -> (usize, Dates) {
    match set {
        Set::Small => (random.between(3, 16), Dates::By(50)),
        Set::Medium => (random.between(20, 60), Dates::By(50)),
        Set::Largest => (MOST_WORDS, Dates::Shared),
        Set::Mixed => {
            let most = random.pick(&[4, 12, 12, 12, 60, MOST_WORDS]);
            let dates = [Dates::By(1), Dates::By(4), Dates::By(1000), Dates::By(M / 300), Dates::Shared, Dates::Last];
            (random.between(1, most), random.pick(&dates))
        }
    }
}

/// Puts a signal behind those of a sheet, and does not count it.
fn put_signal(sheet: &mut Vec<u8>, name: &str, list: &[u32]) {
    let mut field = [0; 8];
    field[..name.len()].copy_from_slice(name.as_bytes());
    sheet.extend(field);
    sheet.extend((list.len() as u16).to_le_bytes());
    sheet.extend(list.iter().flat_map(|word| word.to_le_bytes()));
}

/// The sheet of one signal.
pub fn sheet_of(name: &str, list: &[u32]) -> Vec<u8> {
    let mut bytes = b"SGL\x01\x00\x01\x00".to_vec();
    put_signal(&mut bytes, name, list);
    bytes
}

/// A sheet and its names.
fn sheet(random: &mut Random, set: Set) -> (Vec<u8>, Vec<String>) {
    let count = match set {
        Set::Small => 3,
        Set::Medium => 8,
        Set::Largest => 32,
        Set::Mixed if random.one_in(2) => random.between(0, 4),
        Set::Mixed => random.between(0, 32),
    };
    let mut bytes = b"SGL\x01\x00".to_vec();
    bytes.extend((count as u16).to_le_bytes());
    let mut names = Vec::new();
    // two long lists of dates of their own can have an answer over 256 words
    let long = set == Set::Mixed && random.one_in(6);
    for number in 0..count {
        let name = name(random, number);
        let (words, dates) = if long { (random.between(150, MOST_WORDS), Dates::By(1000)) } else { shape(random, set) };
        let list =
            if long && random.one_in(3) { lists::lone(random, words) } else { lists::list(random, words, dates) };
        put_signal(&mut bytes, &name, &list);
        names.push(name);
    }
    (bytes, names)
}

/// Two formulas: about a third of the pairs are such that the first implies the second on every sheet.
fn pair(writer: &mut Writer, set: Set) -> (String, String) {
    if set == Set::Largest {
        if writer.random.one_in(3) {
            let h = writer.formula(29);
            return (format!("{}.({h})", writer.leaf()), format!("{h}+{}", writer.leaf()));
        }
        // nothing fails before the delay, which ends anywhere among the dates
        let delay = STEP * writer.random.below(MOST_WORDS);
        return (format!("TON({delay},1).({})", writer.formula(28)), writer.formula(31));
    }
    let (least, most) = match set {
        Set::Small => (1, 7),
        Set::Mixed => (1, 20),
        _ => (3, 15),
    };
    let parts = writer.random.between(least, most);
    let h = writer.formula(parts);
    let length = formulas::length(writer.random, writer.lengths);
    match writer.random.below(20) {
        0 => (h.clone(), h),
        1 => (format!("({h}).{}", writer.leaf()), h),
        2 => (h.clone(), format!("{h}+{}", writer.leaf())),
        3 => (format!("TON({length},{h})"), h),
        4 => (h.clone(), format!("TOF({length},{h})")),
        5 => (format!("TP({length},{h})"), format!("TOF({length},{h})")),
        6 => (format!("^TP({length},{h})"), h),
        _ => {
            let parts = writer.random.between(least, most);
            (h, writer.formula(parts))
        }
    }
}

pub fn claim(random: &mut Random, set: Set) -> Claim {
    let (sheet, names) = sheet(random, set);
    let lengths = match set {
        Set::Small => Lengths::To(40),
        Set::Mixed => Lengths::Any,
        Set::Medium => Lengths::To(100),
        Set::Largest => Lengths::Steps,
    };
    let (f, g) = pair(&mut Writer { random, names: &names, lengths }, set);
    let mut claim = Claim { sheet, f: f.into_bytes(), g: g.into_bytes(), work: WORK_WORDS };
    if random.one_in(if set == Set::Mixed { 3 } else { 6 }) {
        damage::damage(random, &mut claim);
    }
    claim
}

/// What an up-time is asked of: a sheet, a name and the horizon.
pub struct Asked {
    pub sheet: Vec<u8>,
    pub name: Vec<u8>,
    pub h: u32,
}

/// A horizon: at one of the dates of a signal's words or beside it, near the start, at M or past it, anywhere.
fn horizon(random: &mut Random, words: &[[u8; 4]]) -> u32 {
    match random.below(16) {
        0 => random.next() as u32,
        1 => M as u32 + random.below(3) as u32 - 1,
        2 => random.below(12) as u32,
        _ => (u32::from_le_bytes(random.pick(words)) / 4 + random.below(3) as u32).saturating_sub(1),
    }
}

pub fn asked(random: &mut Random, set: Set) -> Asked {
    let (mut sheet, names) = sheet(random, set);
    let (mut name, mut h) = (random.pick(&["nosuch", "", "A", "a b", "abcdefghi", "9", "a\0"]), random.next() as u32);
    if !names.is_empty() && !random.one_in(12) {
        let number = random.below(names.len());
        let places = damage::places(&sheet);
        let end = places.get(number + 1).copied().unwrap_or(sheet.len());
        name = &names[number];
        h = horizon(random, sheet[places[number] + 10..end].as_chunks().0);
    }
    if random.one_in(6) {
        damage::damage_sheet(random, &mut sheet);
    }
    Asked { sheet, name: name.as_bytes().to_vec(), h }
}

/// What a list call is given: a table or a length, and two lists.
pub struct Given {
    pub number: u32,
    pub a: Vec<u32>,
    pub b: Vec<u32>,
}

pub fn given(random: &mut Random) -> Given {
    let (words, dates) = shape(random, Set::Mixed);
    let a = if random.one_in(8) { lists::lone(random, words) } else { lists::list(random, words, dates) };
    // the second like the first, or of its own kind
    let (other_words, other_dates) = shape(random, Set::Mixed);
    let other_dates = if random.one_in(2) { dates } else { other_dates };
    let b = lists::list(random, other_words, other_dates);
    let number = match random.below(4) {
        0 => random.next() as u32,
        1 => M as u32 + random.below(3) as u32 - 1,
        _ => random.below(40) as u32,
    };
    let mut given = Given { number, a, b };
    if random.one_in(5) {
        given.a = lists::damaged(random, given.a);
    }
    if random.one_in(5) {
        given.b = lists::damaged(random, given.b);
    }
    given
}

/// A list to be tidied: of its words none, some, most or all are idle, or those at its end. One in five is damaged.
pub fn untidy(random: &mut Random) -> Vec<u32> {
    let (words, dates) = shape(random, Set::Mixed);
    let idle = random.pick(&[0, 3, 6, 10, 12]);
    let mut list = lists::loose(random, words, dates, idle);
    if random.one_in(3) {
        list = lists::still_from(list, random.between(1, words));
    }
    if random.one_in(5) {
        list = lists::damaged(random, list);
    }
    list
}

/// Lists of 3 to 256 words, of which about so many in 12 are idle.
pub fn batch(random: &mut Random, count: usize, idle: usize) -> Vec<Vec<u32>> {
    (0..count)
        .map(|_| {
            let words = random.between(3, MOST_WORDS);
            lists::loose(random, words, Dates::By(50), idle)
        })
        .collect()
}
