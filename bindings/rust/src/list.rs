use crate::{calls, column, Column, Fault, Moment, Verdict, LIST_WORDS};
use std::iter::FusedIterator;
use std::slice;

/// An accepted list: the one list of a signal.
///
/// ```
/// # use rascrunel::{Change, List};
/// let list = List::try_from(vec![0, 23, 36])?; // down, up from 5, down from 9
/// assert!(!list.start());
/// let changes: Vec<Change> = list.changes().collect();
/// assert_eq!(changes[0], Change { date: 5, at: true, after: true });
/// assert_eq!(changes[1], Change { date: 9, at: false, after: false });
/// assert_eq!(list.changes().rev().map(|change| change.date).next(), Some(9));
/// # Ok::<(), rascrunel::Fault>(())
/// ```
#[derive(Clone, Debug, PartialEq, Eq, Hash)]
pub struct List {
    words: Vec<u32>,
}

// The words that a call writes into an output of 256.
pub(crate) fn written(call: impl FnOnce(&mut [u32]) -> Result<usize, Fault>) -> Result<List, Fault> {
    let mut out = vec![0; LIST_WORDS];
    let count = call(&mut out)?;
    out.truncate(count);
    Ok(List { words: out })
}

impl List {
    /// The list of these words, if they are one.
    pub fn new(words: &[u32]) -> Result<List, Fault> {
        calls::list_fault(words)?;
        Ok(List { words: words.to_vec() })
    }

    // The list of words that the library has accepted already.
    pub(crate) fn accepted(words: Vec<u32>) -> List {
        List { words }
    }

    /// The normal list of words of which some may change nothing.
    pub fn tidy(words: &[u32]) -> Result<List, Fault> {
        written(|out| calls::tidy(words, out))
    }

    /// Its words: 0 or 1, the value from the start on, then of each change 4 times its date, and 2 and 1 for up at it and after it.
    pub fn words(&self) -> &[u32] {
        &self.words
    }

    /// The value from the start on.
    pub fn start(&self) -> bool {
        self.words[0] == 1
    }

    /// The changes in order of their dates.
    pub fn changes(&self) -> Changes<'_> {
        Changes { words: self.words[1..].iter() }
    }

    /// The value at the instant k.
    pub fn value_at(&self, k: u32) -> Result<bool, Fault> {
        calls::value_at(&self.words, k)
    }

    /// The value between k and k + 1.
    pub fn value_in(&self, k: u32) -> Result<bool, Fault> {
        calls::value_in(&self.words, k)
    }

    /// The value at a moment.
    pub fn value(&self, moment: Moment) -> Result<bool, Fault> {
        match moment {
            Moment::Instant(k) => self.value_at(k),
            Moment::Gap(k) => self.value_in(k),
        }
    }

    /// The values at moments that rise, at most [`COLUMN_MOMENTS`](crate::COLUMN_MOMENTS), in one call: each is what
    /// [`value`](List::value) gives. Faults 20, 9.
    ///
    /// ```
    /// # use rascrunel::{Fault, List, Moment};
    /// use Moment::{Gap, Instant};
    /// let list = List::new(&[0, 23, 36])?; // up from 5, down from 9
    /// let column = list.values(&[Gap(4), Instant(5), Gap(7)])?;
    /// assert_eq!(column.values, [false, true, true]);
    /// assert_eq!(column.passed, 2); // `down` and `up from 5`
    /// assert_eq!(list.values(&[Gap(5), Instant(5)]), Err(Fault::MomentOrder));
    /// # Ok::<(), rascrunel::Fault>(())
    /// ```
    pub fn values(&self, moments: &[Moment]) -> Result<Column, Fault> {
        let numbers = column::numbers(moments);
        // a word for each moment: 7 cannot come
        let mut out = vec![0; numbers.len()];
        let (count, passed) = calls::values(&self.words, &numbers, &mut out)?;
        Ok(Column { values: out[..count].iter().map(|&word| word == 1).collect(), passed })
    }

    /// Whether the other has the same value at every moment.
    pub fn equal(&self, other: &List) -> Result<bool, Fault> {
        calls::equal(&self.words, &other.words)
    }

    /// Whether the other is up wherever this is, or from when it is not, and until when.
    pub fn implies(&self, other: &List) -> Result<Verdict, Fault> {
        calls::implies(&self.words, &other.words)
    }

    /// NOT: up where this is down.
    pub fn not(&self) -> Result<List, Fault> {
        written(|out| calls::not(&self.words, out))
    }

    /// The connective with this table, row by this signal's value, column by the other's.
    pub fn connective(&self, table: [[bool; 2]; 2], other: &List) -> Result<List, Fault> {
        let bits = table[0][0] as u32 | (table[0][1] as u32) << 1 | (table[1][0] as u32) << 2 | (table[1][1] as u32) << 3;
        written(|out| calls::connective(bits, &self.words, &other.words, out))
    }

    /// AND of both.
    pub fn and(&self, other: &List) -> Result<List, Fault> {
        self.connective([[false, false], [false, true]], other)
    }

    /// OR of both.
    pub fn or(&self, other: &List) -> Result<List, Fault> {
        self.connective([[false, true], [true, true]], other)
    }

    /// The rising edges: up at each instant at which this is up, and down just before.
    pub fn rising(&self) -> Result<List, Fault> {
        written(|out| calls::rising(&self.words, out))
    }

    /// The falling edges: up at each instant at which this is down, and up just before.
    pub fn falling(&self) -> Result<List, Fault> {
        written(|out| calls::falling(&self.words, out))
    }

    /// The latch that this sets and the other resets, in which set wins.
    pub fn sr(&self, reset: &List) -> Result<List, Fault> {
        written(|out| calls::sr(&self.words, &reset.words, out))
    }

    /// The latch that this sets and the other resets, in which reset wins.
    pub fn rs(&self, reset: &List) -> Result<List, Fault> {
        written(|out| calls::rs(&self.words, &reset.words, out))
    }

    /// The on-delay.
    pub fn ton(&self, d: u32) -> Result<List, Fault> {
        written(|out| calls::ton(d, &self.words, out))
    }

    /// The off-delay.
    pub fn tof(&self, d: u32) -> Result<List, Fault> {
        written(|out| calls::tof(d, &self.words, out))
    }

    /// The pulse timer: up from each rising instant for d ticks, those that come while a pulse runs ignored.
    pub fn tp(&self, d: u32) -> Result<List, Fault> {
        written(|out| calls::tp(d, &self.words, out))
    }
}

/// A change of a signal.
#[derive(Clone, Copy, Debug, PartialEq, Eq, Hash)]
pub struct Change {
    /// The instant, in ticks.
    pub date: u32,
    /// Whether the signal is up at it.
    pub at: bool,
    /// Whether it is up after it.
    pub after: bool,
}

/// The changes of a list in order of their dates.
#[derive(Clone, Debug)]
pub struct Changes<'a> {
    words: slice::Iter<'a, u32>,
}

fn change(word: &u32) -> Change {
    Change { date: word / 4, at: word / 2 % 2 == 1, after: word % 2 == 1 }
}

impl Iterator for Changes<'_> {
    type Item = Change;

    fn next(&mut self) -> Option<Change> {
        self.words.next().map(change)
    }

    fn size_hint(&self) -> (usize, Option<usize>) {
        self.words.size_hint()
    }
}

impl DoubleEndedIterator for Changes<'_> {
    fn next_back(&mut self) -> Option<Change> {
        self.words.next_back().map(change)
    }
}

impl ExactSizeIterator for Changes<'_> {}

impl FusedIterator for Changes<'_> {}

impl<'a> IntoIterator for &'a List {
    type Item = Change;
    type IntoIter = Changes<'a>;

    fn into_iter(self) -> Changes<'a> {
        self.changes()
    }
}

impl AsRef<[u32]> for List {
    fn as_ref(&self) -> &[u32] {
        &self.words
    }
}

impl TryFrom<Vec<u32>> for List {
    type Error = Fault;

    fn try_from(words: Vec<u32>) -> Result<List, Fault> {
        calls::list_fault(&words)?;
        Ok(List { words })
    }
}

impl TryFrom<&[u32]> for List {
    type Error = Fault;

    fn try_from(words: &[u32]) -> Result<List, Fault> {
        List::new(words)
    }
}

impl From<List> for Vec<u32> {
    fn from(list: List) -> Vec<u32> {
        list.words
    }
}
