//! Lists of words: the check of a list, and a reader that goes along it.

/// The largest date and the largest length.
pub const M: u32 = 1_073_741_823;

/// The most words of a list.
pub const WORDS: usize = 256;

/// The date where no word is left: above every sum of a date and a length.
pub const NEVER: u32 = u32::MAX;

/// The fault of a word, from the word before it: that has the last date, 0 in a first word, and the value held since.
pub fn judge_word(before: u32, word: u32) -> Result<(), u32> {
    if word / 4 <= before / 4 {
        return Err(3);
    }
    if word % 4 == 3 * (before % 2) {
        return Err(4);
    }
    Ok(())
}

/// Faults 1, 2, then word by word 3, 4.
pub fn judge(list: &[u32]) -> Result<(), u32> {
    if list.is_empty() || list.len() > WORDS {
        return Err(1);
    }
    let mut before = list[0];
    if before > 1 {
        return Err(2);
    }
    for &word in &list[1..] {
        judge_word(before, word)?;
        before = word;
    }
    Ok(())
}

/// A reader of an accepted list: how many words it has passed, and the value after them.
pub struct Reader<'a> {
    words: &'a [u32],
    passed: usize,
    pub value: bool,
}

impl<'a> Reader<'a> {
    pub fn new(words: &'a [u32]) -> Reader<'a> {
        Reader { words, passed: 1, value: words[0] == 1 }
    }

    /// The date of the next word.
    pub fn date(&self) -> u32 {
        match self.words.get(self.passed) {
            Some(word) => word / 4,
            None => NEVER,
        }
    }

    /// Past a date: the values at it and after it.
    pub fn pass(&mut self, date: u32) -> (bool, bool) {
        match self.words.get(self.passed) {
            Some(&word) if word / 4 == date => {
                self.passed += 1;
                self.value = word & 1 != 0;
                (word & 2 != 0, self.value)
            }
            _ => (self.value, self.value),
        }
    }
}

/// Two readers that go date by date.
pub struct Both<'a> {
    pub a: Reader<'a>,
    pub b: Reader<'a>,
}

/// A date at which one of two lists has a word, and the values of both at it and after it.
pub struct Change {
    pub date: u32,
    pub a_at: bool,
    pub a_after: bool,
    pub b_at: bool,
    pub b_after: bool,
}

impl<'a> Both<'a> {
    pub fn new(a: &'a [u32], b: &'a [u32]) -> Both<'a> {
        Both { a: Reader::new(a), b: Reader::new(b) }
    }

    pub fn next(&mut self) -> Option<Change> {
        let date = self.a.date().min(self.b.date());
        if date == NEVER {
            return None;
        }
        let (a_at, a_after) = self.a.pass(date);
        let (b_at, b_after) = self.b.pass(date);
        Some(Change { date, a_at, a_after, b_at, b_after })
    }
}
