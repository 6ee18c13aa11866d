use std::cmp::Ordering;
use std::fmt;

/// A moment: an instant, or the gap between it and the next. Its order is that of time: instant k, gap k, instant k + 1. It prints as in
/// the line of a [`Verdict`](crate::Verdict).
///
/// ```
/// # use rascrunel::{Moment, Verdict};
/// use Moment::{Gap, Instant};
/// assert!(Instant(5) < Gap(5) && Gap(5) < Instant(6));
/// assert_eq!((Instant(5).to_string().as_str(), Gap(5).to_string().as_str()), ("at 5", "after 5"));
/// let verdict: Verdict = "fails after 5 until before 7".parse()?;
/// assert_eq!(verdict.first(), Some(Gap(5)));
/// # Ok::<(), rascrunel::ParseVerdictError>(())
/// ```
#[derive(Clone, Copy, Debug, PartialEq, Eq, Hash)]
pub enum Moment {
    /// The instant k, from 1 on.
    Instant(u32),
    /// The gap between the instants k and k + 1, from 0 on.
    Gap(u32),
}

impl Moment {
    /// Its number, 2k for the instant k and 2k + 1 for the gap k, as [`calls::values`](crate::calls::values) takes it; none above
    /// 2^31 - 1, a date that no signal has.
    pub fn number(self) -> Option<u32> {
        self.order().try_into().ok()
    }

    fn order(self) -> u64 {
        match self {
            Moment::Instant(k) => 2 * u64::from(k),
            Moment::Gap(k) => 2 * u64::from(k) + 1,
        }
    }
}

impl Ord for Moment {
    fn cmp(&self, other: &Moment) -> Ordering {
        self.order().cmp(&other.order())
    }
}

impl PartialOrd for Moment {
    fn partial_cmp(&self, other: &Moment) -> Option<Ordering> {
        Some(self.cmp(other))
    }
}

impl fmt::Display for Moment {
    fn fmt(&self, f: &mut fmt::Formatter<'_>) -> fmt::Result {
        match self {
            Moment::Instant(k) => f.pad(&format!("at {k}")),
            Moment::Gap(k) => f.pad(&format!("after {k}")),
        }
    }
}
