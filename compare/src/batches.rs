//! Batches of lists to be tidied: each list once, all into one output.
use crate::generate::{self, MOST_WORDS};
use crate::random::Random;
use std::hint::black_box;

/// How many lists a batch has.
const LISTS: usize = 4_000;

/// The row of each batch, and how many in 12 of its words are idle.
const ROWS: [(&str, usize); 2] = [("tidies", 0), ("tidies-idle", 4)];

pub struct Batch {
    pub name: &'static str,
    /// How many words the lists have together.
    pub words: usize,
    lists: Vec<Vec<u32>>,
}

impl Batch {
    pub fn all(seed: u64) -> impl Iterator<Item = Batch> {
        ROWS.into_iter().map(move |(name, idle)| {
            let lists = generate::batch(&mut Random(seed), LISTS, idle);
            Batch { name, words: lists.iter().map(Vec::len).sum(), lists }
        })
    }

    /// Tidies each list, of which none may be refused: how many words are left.
    pub fn tidy(&self, call: impl Fn(&[u32], &mut [u32]) -> u32) -> usize {
        let mut out = [0; MOST_WORDS];
        let mut left = 0;
        for list in &self.lists {
            let count = call(black_box(list), black_box(&mut out)) as usize;
            assert!(count <= MOST_WORDS, "{}: {list:?} is refused", self.name);
            left += count;
        }
        left
    }
}
