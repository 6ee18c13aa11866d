//! Lists of words.
use crate::random::Random;

pub const M: usize = 1_073_741_823;
pub const MOST_WORDS: usize = 256;

/// Between the dates of lists that share them.
pub const STEP: usize = 1000;

/// How the dates of a list rise.
#[derive(Clone, Copy)]
pub enum Dates {
    /// By 1 up to this.
    By(usize),
    /// By the step, from the step on.
    Shared,
    /// By 1 to 3, up to M or near it.
    Last,
}

/// A list of so many words, fewer where the dates end before.
pub fn list(random: &mut Random, words: usize, dates: Dates) -> Vec<u32> {
    loose(random, words, dates, 0)
}

/// A list as above, but that of its words after the first about so many in 12 are idle: they change nothing.
pub fn loose(random: &mut Random, words: usize, dates: Dates, idle: usize) -> Vec<u32> {
    let mut list = vec![random.below(2) as u32];
    let mut date = if let Dates::Last = dates { M - 3 * words } else { 0 };
    while list.len() < words {
        date += match dates {
            Dates::By(most) => random.between(1, most),
            Dates::Shared => STEP,
            Dates::Last => random.between(1, 3),
        };
        let held = 3 * (list[list.len() - 1] % 2);
        let turned = 3 - held;
        let values = if idle > 0 && random.below(12) < idle {
            held
        } else if random.one_in(2) {
            turned
        } else {
            random.pick(&[1, 2, turned])
        };
        list.push(4 * date as u32 + values);
    }
    list
}

/// The same list with every word from a place after the first on idle.
pub fn still_from(mut list: Vec<u32>, place: usize) -> Vec<u32> {
    for at in place..list.len() {
        list[at] = list[at] / 4 * 4 + 3 * (list[at - 1] % 2);
    }
    list
}

/// One value but for lone instants: of such a list a timer gives up to two words for each.
pub fn lone(random: &mut Random, words: usize) -> Vec<u32> {
    let value = random.below(2);
    let mut list = vec![value as u32];
    let mut date = 0;
    while list.len() < words {
        date += random.between(1, 40);
        list.push((4 * date + 2 - value) as u32);
    }
    list
}

/// Down, then up and down in turn, a change in each stretch of 20 ticks, from a date of its first half or of its second half on.
pub fn turns(random: &mut Random, words: usize, half: usize) -> Vec<u32> {
    let word = |i: usize, random: &mut Random| match i {
        0 => 0,
        _ => 4 * (20 * i + 10 * half + random.below(10)) as u32 + if i % 2 == 1 { 3 } else { 0 },
    };
    (0..words).map(|i| word(i, random)).collect()
}

/// A list that may break a rule.
pub fn damaged(random: &mut Random, mut list: Vec<u32>) -> Vec<u32> {
    let at = random.below(list.len());
    match random.below(7) {
        0 => list.clear(),
        1 => list[0] = random.pick(&[2, 3, u32::MAX]),
        2 => list[at] = random.next() as u32,
        3 => list[at] = list[at.saturating_sub(1)],
        4 => list[at] ^= random.pick(&[1, 2, 3]),
        5 => list.extend((0..random.between(1, 260)).map(|i| 4 * (M as u32 - 300 + i as u32) + 1)),
        _ => list.reverse(),
    }
    list
}
