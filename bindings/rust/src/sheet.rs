use crate::whereabouts::{sheet_refusal, SheetRefusal};
use crate::{calls, Fault, List, Stretch, UpTime, LIST_WORDS, SHEET_BYTES};
use std::iter::FusedIterator;

/// An accepted sheet: up to 32 named signals.
///
/// ```
/// # use rascrunel::Sheet;
/// let sheet = Sheet::begin()?.append("a", &[0, 23, 36])?.append("b", &[1])?;
/// for (name, list) in &sheet {
///     println!("{name}: {} changes", list.changes().len());
/// }
/// assert_eq!(Sheet::try_from(sheet.bytes())?, sheet);
/// # Ok::<(), rascrunel::Fault>(())
/// ```
#[derive(Clone, Debug, PartialEq, Eq, Hash)]
pub struct Sheet {
    bytes: Vec<u8>,
}

// The sheet that a call writes into an output as long as the longest sheet.
fn sheet(call: impl FnOnce(&mut [u8]) -> Result<usize, Fault>) -> Result<Sheet, Fault> {
    let mut out = vec![0; SHEET_BYTES];
    let count = call(&mut out)?;
    out.truncate(count);
    Ok(Sheet { bytes: out })
}

// The layout: mark, version and count of signals; of each signal its name, its count of words, its words.
pub(crate) const FRONT: usize = 7;
pub(crate) const NAME: usize = 8;

// The words that stand in these bytes, low byte first.
pub(crate) fn words(bytes: &[u8]) -> Vec<u32> {
    bytes.chunks_exact(4).map(|b| u32::from_le_bytes([b[0], b[1], b[2], b[3]])).collect()
}

impl Sheet {
    /// The sheet without signals.
    pub fn begin() -> Result<Sheet, Fault> {
        sheet(calls::begin)
    }

    /// The sheet of these bytes, if they are one. `Sheet::try_from` tells also where they are refused.
    pub fn new(bytes: &[u8]) -> Result<Sheet, Fault> {
        calls::sheet_fault(bytes)?;
        Ok(Sheet { bytes: bytes.to_vec() })
    }

    /// Its bytes, as a sheet file has them.
    pub fn bytes(&self) -> &[u8] {
        &self.bytes
    }

    /// The sheet with one signal more; the words are judged.
    pub fn append(&self, name: &str, words: &[u32]) -> Result<Sheet, Fault> {
        sheet(|out| calls::append(&self.bytes, name.as_bytes(), words, out))
    }

    /// The list of a signal.
    pub fn lookup(&self, name: &str) -> Result<List, Fault> {
        let (start, count) = calls::lookup(&self.bytes, name.as_bytes())?;
        List::try_from(words(&self.bytes[start..start + count]))
    }

    /// When a signal was up before the date h: its up stretches, and their total in ticks. Faults 16, 13, 19.
    ///
    /// ```
    /// # use rascrunel::Sheet;
    /// let sheet = Sheet::begin()?.append("drive", &[0, 23, 36])?; // up from 5, down from 9
    /// let uptime = sheet.uptime("drive", 8)?;
    /// assert_eq!((uptime.stretches[0].first, uptime.stretches[0].length, uptime.total), (5, 3, 3));
    /// assert_eq!(uptime.to_string(), "5 3\ntotal 3");
    /// # Ok::<(), rascrunel::Fault>(())
    /// ```
    pub fn uptime(&self, name: &str, h: u32) -> Result<UpTime, Fault> {
        // the most words of a list: no signal has more than half as many stretches, so that 7 cannot come
        let mut out = [0; LIST_WORDS];
        let (count, total) = calls::uptime(&self.bytes, name.as_bytes(), h, &mut out)?;
        let stretches = out[..count].chunks_exact(2).map(|pair| Stretch { first: pair[0], length: pair[1] }).collect();
        Ok(UpTime { stretches, total })
    }

    /// The signals in order, each with its name and its list.
    ///
    /// ```
    /// # use rascrunel::Sheet;
    /// let sheet = Sheet::begin()?.append("a", &[0, 23])?.append("b", &[1])?;
    /// let up: Vec<&str> = sheet.signals().filter(|(_, list)| list.start()).map(|(name, _)| name).collect();
    /// assert_eq!(up, ["b"]);
    /// # Ok::<(), rascrunel::Fault>(())
    /// ```
    pub fn signals(&self) -> Signals<'_> {
        let (front, rest) = self.bytes.split_at(FRONT);
        Signals { rest, left: usize::from(u16::from_le_bytes([front[FRONT - 2], front[FRONT - 1]])) }
    }

    /// The names of the signals, in order. It is never refused: the result is as it was before there was [`signals`](Sheet::signals).
    pub fn names(&self) -> Result<Vec<String>, Fault> {
        Ok(self.signals().map(|(name, _)| name.to_string()).collect())
    }
}

/// The signals of a sheet in order, each with its name and its list.
#[derive(Clone, Debug)]
pub struct Signals<'a> {
    // the signals of an accepted sheet that are still to come, and nothing else
    rest: &'a [u8],
    // as many as they are
    left: usize,
}

impl<'a> Iterator for Signals<'a> {
    type Item = (&'a str, List);

    fn next(&mut self) -> Option<(&'a str, List)> {
        let (name, rest) = self.rest.split_first_chunk::<NAME>()?;
        let (count, rest) = rest.split_first_chunk()?;
        let (held, rest) = rest.split_at_checked(4 * usize::from(u16::from_le_bytes(*count)))?;
        (self.rest, self.left) = (rest, self.left - 1);
        let name = std::str::from_utf8(name).ok()?.trim_end_matches('\0');
        Some((name, List::accepted(words(held))))
    }

    fn size_hint(&self) -> (usize, Option<usize>) {
        (self.left, Some(self.left))
    }
}

impl ExactSizeIterator for Signals<'_> {}

impl FusedIterator for Signals<'_> {}

impl<'a> IntoIterator for &'a Sheet {
    type Item = (&'a str, List);
    type IntoIter = Signals<'a>;

    fn into_iter(self) -> Signals<'a> {
        self.signals()
    }
}

impl AsRef<[u8]> for Sheet {
    fn as_ref(&self) -> &[u8] {
        &self.bytes
    }
}

/// Tells also where bytes are refused.
impl TryFrom<Vec<u8>> for Sheet {
    type Error = SheetRefusal;

    fn try_from(bytes: Vec<u8>) -> Result<Sheet, SheetRefusal> {
        sheet_refusal(&bytes).map_or(Ok(Sheet { bytes }), Err)
    }
}

/// Tells also where bytes are refused.
impl TryFrom<&[u8]> for Sheet {
    type Error = SheetRefusal;

    fn try_from(bytes: &[u8]) -> Result<Sheet, SheetRefusal> {
        Sheet::try_from(bytes.to_vec())
    }
}

impl From<Sheet> for Vec<u8> {
    fn from(sheet: Sheet) -> Vec<u8> {
        sheet.bytes
    }
}
