// Random numbers and lists, the same ones for a seed.
pub struct Random(pub u64);

impl Random {
    pub fn below(&mut self, n: u32) -> u32 {
        self.0 ^= self.0 << 13;
        self.0 ^= self.0 >> 7;
        self.0 ^= self.0 << 17;
        ((self.0 >> 16) % n as u64) as u32
    }

    /// A list of so many words, with dates one to `step` ticks apart, and words that change something.
    pub fn list(&mut self, count: usize, step: u32) -> Vec<u32> {
        let mut words = vec![self.below(2)];
        let mut date = 0;
        while words.len() < count {
            date += 1 + self.below(step);
            let held = words[words.len() - 1] % 2;
            let values = (3 * held + 1 + self.below(3)) % 4;
            words.push(4 * date + values);
        }
        words
    }
}

/// The same list with every date so much later: what holds in its gap 0 holds for as long before its first date.
pub fn later(words: &[u32], by: u32) -> Vec<u32> {
    words[..1].iter().copied().chain(words[1..].iter().map(|word| word + 4 * by)).collect()
}
