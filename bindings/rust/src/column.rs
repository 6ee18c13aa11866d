use crate::{Moment, COLUMN_MOMENTS, M};

/// The values of a signal at rising moments.
#[derive(Clone, Debug, PartialEq, Eq, Hash)]
pub struct Column {
    /// One for each moment, true for up.
    pub values: Vec<bool>,
    /// How many of the list's words are dated at or before the last moment, the first word counted as date 0; none for no moments.
    pub passed: usize,
}

// The numbers of moments. One that is past M may have none in 32 bits: for it stands a number past that of gap M, which the library refuses
// like any other such, and which is above the number before it exactly where the moment is after the one before it.
pub(crate) fn numbers(moments: &[Moment]) -> Vec<u32> {
    const PAST: u32 = 2 * M + 2;
    let number = |(place, moment): (usize, &Moment)| match moment.number() {
        Some(number) if number < PAST => number,
        _ if place > 0 && *moment <= moments[place - 1] => PAST,
        _ => PAST + place as u32,
    };
    // more than the most are refused whatever they are, so that one more is enough
    moments.iter().take(COLUMN_MOMENTS + 1).enumerate().map(number).collect()
}
