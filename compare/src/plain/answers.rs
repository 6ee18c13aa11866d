//! An answer built word by word in a slot.
use super::lists::{M, WORDS};

pub struct Answer<'a> {
    slot: &'a mut [u32; WORDS],
    count: usize,
    value: bool,
    late: bool,
}

impl<'a> Answer<'a> {
    pub fn begin(slot: &'a mut [u32; WORDS], value: bool) -> Answer<'a> {
        slot[0] = value as u32;
        Answer { slot, count: 1, value, late: false }
    }

    /// A word, unless it changes nothing: counted always, stored while there is room and its date is at most M.
    pub fn put(&mut self, date: u32, at: bool, after: bool) {
        if at == self.value && after == self.value {
            return;
        }
        if date > M {
            self.late = true;
        } else if self.count < WORDS {
            self.slot[self.count] = 4 * date + 2 * at as u32 + after as u32;
        }
        self.count += 1;
        self.value = after;
    }

    /// The count of its words; 5, then 6.
    pub fn finish(self) -> Result<usize, u32> {
        if self.count > WORDS {
            Err(5)
        } else if self.late {
            Err(6)
        } else {
            Ok(self.count)
        }
    }
}
