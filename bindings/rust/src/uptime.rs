use std::fmt;

/// A longest run of up gaps, cut at the horizon. Gap k lies between the instants k and k + 1.
#[derive(Clone, Copy, Debug, PartialEq, Eq, Hash)]
pub struct Stretch {
    /// Its first gap.
    pub first: u32,
    /// The number of its gaps, which is its length in ticks.
    pub length: u32,
}

/// When a signal was up before a horizon. It prints as the page of the program `uptime`, without the last line feed.
#[derive(Clone, Debug, PartialEq, Eq, Hash)]
pub struct UpTime {
    /// In order of time, at most 128; a down gap lies between two.
    pub stretches: Vec<Stretch>,
    /// The ticks of all of them together.
    pub total: u32,
}

impl fmt::Display for UpTime {
    fn fmt(&self, f: &mut fmt::Formatter<'_>) -> fmt::Result {
        for Stretch { first, length } in &self.stretches {
            writeln!(f, "{first} {length}")?;
        }
        write!(f, "total {}", self.total)
    }
}
