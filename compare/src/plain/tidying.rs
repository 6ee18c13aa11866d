//! Tidying: one pass judges and counts, one writes the words that are kept straight into the output.
use super::lists::WORDS;

/// Whether the second of two words changes nothing: the first has the value held since.
pub fn is_idle(pair: &[u32]) -> bool {
    pair[1] % 4 == 3 * (pair[0] % 2)
}

/// How many words are kept. Faults 1, 2, 3: a fault is seldom, so the pass goes to the end.
fn count(list: &[u32]) -> Result<usize, u32> {
    if list.is_empty() || list.len() > WORDS {
        return Err(1);
    }
    if list[0] > 1 {
        return Err(2);
    }
    let (mut count, mut falls) = (1, false);
    for pair in list.windows(2) {
        falls |= pair[1] / 4 <= pair[0] / 4;
        count += !is_idle(pair) as usize;
    }
    if falls {
        return Err(3);
    }
    Ok(count)
}

/// Faults 1, 2, 3, 7.
pub fn tidy(list: &[u32], out: &mut [u32]) -> Result<usize, u32> {
    let count = count(list)?;
    let out = out.get_mut(..count).ok_or(7u32)?;
    out[0] = list[0];
    let mut place = 1;
    for pair in list.windows(2) {
        if !is_idle(pair) {
            out[place] = pair[1];
            place += 1;
        }
    }
    Ok(count)
}
