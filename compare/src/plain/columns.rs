//! One signal's values at rising moments: 2k is the instant k, 2k + 1 the gap after it.
use super::lists::{judge, M};

/// The most moments of a column.
const MOMENTS: usize = 1000;

/// How many words are written, and how many of the list's words the last moment passes. Faults of the list, 20, 9, 7.
pub fn values(list: &[u32], moments: &[u32], out: &mut [u32]) -> Result<(usize, u32), u32> {
    judge(list)?;
    if moments.len() > MOMENTS || moments.windows(2).any(|pair| pair[1] <= pair[0]) {
        return Err(20);
    }
    // they rise, so that the first and the last tell of all
    if let (Some(&first), Some(&last)) = (moments.first(), moments.last()) {
        if first == 0 || last / 2 > M {
            return Err(9);
        }
    }
    let out = out.get_mut(..moments.len()).ok_or(7u32)?;
    let mut passed = 1;
    for (value, moment) in out.iter_mut().zip(moments) {
        let date = moment / 2;
        while passed < list.len() && list[passed] / 4 <= date {
            passed += 1;
        }
        let word = list[passed - 1];
        let is_at_word = moment % 2 == 0 && word / 4 == date;
        *value = if is_at_word { word / 2 % 2 } else { word % 2 };
    }
    Ok((moments.len(), if moments.is_empty() { 0 } else { passed as u32 }))
}
