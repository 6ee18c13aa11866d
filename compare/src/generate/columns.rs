//! What a column is asked of.
use super::lists::{self, M};
use super::{shape, Set};
use crate::random::Random;

/// The most moments of a column.
pub const MOST_MOMENTS: usize = 1000;

/// A list, and moments by their numbers: 2k is the instant k, 2k + 1 the gap after it.
pub struct Chart {
    pub list: Vec<u32>,
    pub moments: Vec<u32>,
}

/// So many moments that rise from a number on, by 1 up to this.
fn rising(random: &mut Random, from: usize, by: usize, count: usize) -> Vec<u32> {
    let mut number = from;
    let mut next = || {
        number += random.between(1, by);
        number as u32
    };
    (0..count).map(|_| next()).collect()
}

/// So many moments over all dates of a list.
pub fn over(random: &mut Random, list: &[u32], count: usize) -> Vec<u32> {
    let each = (list[list.len() - 1] as usize / 2 / count).max(1);
    rising(random, 0, 2 * each - 1, count)
}

/// Moments of which one may be out of order, instant 0 or past M.
fn damaged(random: &mut Random, mut moments: Vec<u32>) -> Vec<u32> {
    if moments.is_empty() {
        return vec![0];
    }
    let (at, last) = (random.below(moments.len()), moments.len() - 1);
    match random.below(8) {
        0 => moments[0] = 0,
        1 => moments[at] = 0,
        2 => moments[at] = moments[at.saturating_sub(1)],
        3 => moments[at] = moments[at].wrapping_sub(1),
        4 => moments.swap(at, last),
        5 => moments[last] = 2 * M as u32 + random.below(5) as u32,
        6 => moments[last] = u32::MAX - random.below(2) as u32,
        _ => moments[at] = random.next() as u32,
    }
    moments
}

/// Of the lists one in six is damaged, of the moments one in four. These are few or many, close or over all dates of the list.
pub fn chart(random: &mut Random) -> Chart {
    let (words, dates) = shape(random, Set::Mixed);
    let list = lists::list(random, words, dates);
    let count = match random.below(12) {
        0 => 0,
        1 => MOST_MOMENTS,
        2 => MOST_MOMENTS + 1,
        3 => random.between(1, MOST_MOMENTS),
        _ => random.between(1, 40),
    };
    let mut moments = match random.below(3) {
        0 if count > 0 => over(random, &list, count),
        _ => {
            let from = (random.pick(&list) as usize / 2).saturating_sub(random.below(20));
            // near M they may end past it
            let by = random.pick(&[1, 2, 5]);
            rising(random, from, by, count)
        }
    };
    if random.one_in(4) {
        moments = damaged(random, moments);
    }
    let list = if random.one_in(6) { lists::damaged(random, list) } else { list };
    Chart { list, moments }
}
