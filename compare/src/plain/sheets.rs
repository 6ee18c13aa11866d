//! Sheets: judged front to back once, then walked by name.
use super::lists::{judge_word, WORDS};

const MARK: &[u8; 5] = b"SGL\x01\x00";
const FIRST_AT: usize = 7;
const MOST_SIGNALS: usize = 32;

/// A name of 1 to 8 characters, padded with zeros.
pub type Name = [u8; 8];

/// Where the words of a signal stand among the signals of a sheet, in bytes.
#[derive(Clone, Copy, Default)]
pub struct Place {
    start: u16,
    end: u16,
}

/// A sheet that was judged and accepted: its signals, and how many.
pub struct Sheet<'a> {
    signals: &'a [u8],
    count: usize,
}

fn well_named(name: &Name) -> bool {
    let length = name.iter().position(|&byte| byte == 0).unwrap_or(name.len());
    let (letters, padding) = name.split_at(length);
    length > 0
        && letters[0].is_ascii_lowercase()
        && letters.iter().all(|byte| byte.is_ascii_lowercase() || byte.is_ascii_digit())
        && padding.iter().all(|&byte| byte == 0)
}

/// The field of a name that is given without zero bytes; 16.
pub fn name_field(name: &[u8]) -> Result<Name, u32> {
    let mut field = [0; 8];
    field.get_mut(..name.len()).ok_or(16u32)?.copy_from_slice(name);
    if name.contains(&0) || !well_named(&field) {
        return Err(16);
    }
    Ok(field)
}

/// Where the words of the signal with a name stand, if it is one of the first signals.
fn find(signals: &[u8], count: usize, name: &Name) -> Option<Place> {
    let mut at = 0;
    for _ in 0..count {
        let (held, rest) = signals[at..].split_first_chunk::<8>()?;
        let (words, _) = rest.split_first_chunk::<2>()?;
        let start = at + 10;
        let end = start + 4 * u16::from_le_bytes(*words) as usize;
        if held == name {
            return Some(Place { start: start as u16, end: end as u16 });
        }
        at = end;
    }
    None
}

pub fn word_of(bytes: &[u8; 4]) -> u32 {
    u32::from_le_bytes(*bytes)
}

/// The words of a signal, those that are there, each judged before the next.
fn judge_words(bytes: &[u8]) -> Result<(), u32> {
    let (words, _) = bytes.as_chunks::<4>();
    let Some(first) = words.first() else {
        return Ok(());
    };
    let mut before = word_of(first);
    if before > 1 {
        return Err(17);
    }
    for word in &words[1..] {
        let word = word_of(word);
        judge_word(before, word).map_err(|_| 17u32)?;
        before = word;
    }
    Ok(())
}

impl<'a> Sheet<'a> {
    /// Faults 14 to 17, front to back.
    pub fn judge(bytes: &'a [u8]) -> Result<Sheet<'a>, u32> {
        if !bytes.starts_with(MARK) {
            return Err(14);
        }
        if bytes.len() < FIRST_AT {
            return Err(15);
        }
        let count = u16::from_le_bytes([bytes[5], bytes[6]]) as usize;
        if count > MOST_SIGNALS {
            return Err(15);
        }
        let signals = &bytes[FIRST_AT..];
        let mut left = signals;
        for before in 0..count {
            let (name, rest) = left.split_first_chunk::<8>().ok_or(15u32)?;
            if !well_named(name) || find(signals, before, name).is_some() {
                return Err(16);
            }
            let (words, rest) = rest.split_first_chunk::<2>().ok_or(15u32)?;
            let words = u16::from_le_bytes(*words) as usize;
            if !(1..=WORDS).contains(&words) {
                return Err(17);
            }
            judge_words(&rest[..rest.len().min(4 * words)])?;
            left = rest.get(4 * words..).ok_or(15u32)?;
        }
        if left.is_empty() {
            Ok(Sheet { signals, count })
        } else {
            Err(15)
        }
    }

    /// The signal with a name; 13.
    pub fn find(&self, name: &Name) -> Result<Place, u32> {
        find(self.signals, self.count, name).ok_or(13)
    }

    /// The bytes of a signal's words.
    pub fn words(&self, place: Place) -> &'a [u8] {
        &self.signals[place.start as usize..place.end as usize]
    }
}
