//! Raw lists: one after the other as a sheet holds them but without names, each a word count of 16 bits and its words of 32 bits, low
//! byte first.
use crate::sheet::words;
use crate::whereabouts::WordPlace;
use crate::{calls, Fault, Wrongs, LIST_WORDS};
use std::error::Error;
use std::fmt;

/// What is wrong with a list.
#[derive(Clone, Debug, PartialEq, Eq)]
#[non_exhaustive]
pub struct Wrong {
    /// The number of the list, counted from 1.
    pub list: usize,
    /// The byte at which the list begins, counted from 0.
    pub byte: usize,
    /// The fault with which the library refuses it; none where the file ends inside it.
    pub fault: Option<Fault>,
    /// What is wrong, with the word itself.
    pub what: String,
}

impl fmt::Display for Wrong {
    fn fmt(&self, f: &mut fmt::Formatter<'_>) -> fmt::Result {
        write!(f, "list {} at byte {}: ", self.list, self.byte)?;
        if let Some(fault) = self.fault {
            write!(f, "refused {}: ", fault.number())?;
        }
        f.write_str(&self.what)
    }
}

impl Error for Wrong {}

/// Whether a file holds raw lists and no text: it has a byte 0, as every list that is accepted has, and no text.
pub fn is_raw(bytes: &[u8]) -> bool {
    bytes.contains(&0)
}

/// The lists, each tidied.
///
/// ```
/// # use rascrunel::raw;
/// let tidied = raw::tidy(b"\x02\0\0\0\0\0\x10\0\0\0").unwrap(); // [0, 16]: down from 4 on while down
/// assert_eq!(tidied, b"\x01\0\0\0\0\0");
/// ```
pub fn tidy(bytes: &[u8]) -> Result<Vec<u8>, Wrongs<Wrong>> {
    let mut tidied = Vec::with_capacity(bytes.len());
    let mut wrongs = Wrongs::none();
    let (mut list, mut rest) = (1, bytes);
    while !rest.is_empty() {
        let byte = bytes.len() - rest.len();
        let (held, after) = match split(rest) {
            Ok(parts) => parts,
            Err(what) => {
                wrongs.add(|| Wrong { list, byte, fault: None, what: what.to_string() });
                break;
            }
        };
        let words = words(held);
        if let Err(fault) = tidy_list(&words, &mut tidied) {
            wrongs.add(|| Wrong { list, byte, fault: Some(fault), what: refused(&words, byte, fault) });
        }
        list += 1;
        rest = after;
    }
    wrongs.or(tidied)
}

// The bytes of the first list's words, and what stands after them.
fn split(bytes: &[u8]) -> Result<(&[u8], &[u8]), &'static str> {
    let (count, rest) = bytes.split_first_chunk().ok_or("the file ends inside its count")?;
    rest.split_at_checked(4 * u16::from_le_bytes(*count) as usize).ok_or("the file ends inside its words")
}

fn tidy_list(words: &[u32], to: &mut Vec<u8>) -> Result<(), Fault> {
    let mut out = [0; LIST_WORDS];
    let count = calls::tidy(words, &mut out)?;
    to.extend((count as u16).to_le_bytes());
    to.extend(out[..count].iter().flat_map(|word| word.to_le_bytes()));
    Ok(())
}

// What is wrong with a list that begins at a byte: its words stand after its count.
fn refused(words: &[u32], byte: usize, fault: Fault) -> String {
    if fault == Fault::ListLength {
        return format!("{} words, and a list has 1 to {LIST_WORDS}", words.len());
    }
    match WordPlace::found(words, |words| calls::tidy(words, &mut [0; LIST_WORDS]).map(drop)) {
        Some(word) => format!("word {} of {}, at byte {}, is {}: {word}", word.number, word.of, byte + 4 * word.number - 2, word.value),
        None => fault.text().to_string(),
    }
}
