use crate::Moment;
use std::fmt;
use std::str::FromStr;

/// What a claim says: it holds, or the earliest moment at which it fails, and until when. It prints as the line of the program `claim`, and
/// is read from it.
///
/// ```
/// # use rascrunel::{End, Verdict};
/// let verdict: Verdict = "fails at 5 until before 7".parse()?;
/// assert_eq!(verdict, Verdict::FailsAt(5, End::Before(7)));
/// assert_eq!(verdict.to_string(), "fails at 5 until before 7");
/// assert!("fails at 05 for good".parse::<Verdict>().is_err());
/// # Ok::<(), rascrunel::ParseVerdictError>(())
/// ```
#[derive(Clone, Copy, Debug, PartialEq, Eq, Hash)]
pub enum Verdict {
    /// Wherever the first is up, the second is.
    Holds,
    /// At an instant.
    FailsAt(u32, End),
    /// Between an instant and the next.
    FailsAfter(u32, End),
}

/// The last moment of the unbroken run of failing moments that the earliest begins.
#[derive(Clone, Copy, Debug, PartialEq, Eq, Hash)]
pub enum End {
    /// An instant.
    At(u32),
    /// The gap that lies between the instant before this one and this one.
    Before(u32),
    /// None: every moment from the earliest on fails.
    Never,
}

impl Verdict {
    /// Whether it holds.
    pub fn holds(self) -> bool {
        self == Verdict::Holds
    }

    /// The earliest moment at which it fails, none where it holds.
    pub fn first(self) -> Option<Moment> {
        match self {
            Verdict::Holds => None,
            Verdict::FailsAt(k, _) => Some(Moment::Instant(k)),
            Verdict::FailsAfter(k, _) => Some(Moment::Gap(k)),
        }
    }

    /// Until when it fails, none where it holds.
    pub fn end(self) -> Option<End> {
        match self {
            Verdict::Holds => None,
            Verdict::FailsAt(_, end) | Verdict::FailsAfter(_, end) => Some(end),
        }
    }
}

impl fmt::Display for Verdict {
    fn fmt(&self, f: &mut fmt::Formatter<'_>) -> fmt::Result {
        match self {
            Verdict::Holds => write!(f, "holds"),
            Verdict::FailsAt(k, end) => write!(f, "fails at {k} {end}"),
            Verdict::FailsAfter(k, end) => write!(f, "fails after {k} {end}"),
        }
    }
}

impl fmt::Display for End {
    fn fmt(&self, f: &mut fmt::Formatter<'_>) -> fmt::Result {
        match self {
            End::At(k) => write!(f, "until {k}"),
            End::Before(k) => write!(f, "until before {k}"),
            End::Never => write!(f, "for good"),
        }
    }
}

/// A line that is no verdict.
#[derive(Clone, Copy, Debug, PartialEq, Eq, Hash)]
pub struct ParseVerdictError;

impl fmt::Display for ParseVerdictError {
    fn fmt(&self, f: &mut fmt::Formatter<'_>) -> fmt::Result {
        write!(f, "no verdict: `holds`, or `fails at K` or `fails after K` with `until J`, `until before J` or `for good`")
    }
}

impl std::error::Error for ParseVerdictError {}

/// A number as it is printed: in digits, without needless zeros.
pub(crate) fn number(text: &str) -> Option<u32> {
    text.parse().ok().filter(|number: &u32| number.to_string() == text)
}

impl FromStr for Verdict {
    type Err = ParseVerdictError;

    fn from_str(line: &str) -> Result<Verdict, ParseVerdictError> {
        let fails = |rest: &str| {
            let (first, end) = rest.split_once(' ').ok_or(ParseVerdictError)?;
            Ok((number(first).ok_or(ParseVerdictError)?, end.parse()?))
        };
        if line == "holds" {
            Ok(Verdict::Holds)
        } else if let Some(rest) = line.strip_prefix("fails at ") {
            fails(rest).map(|(k, end)| Verdict::FailsAt(k, end))
        } else {
            let rest = line.strip_prefix("fails after ").ok_or(ParseVerdictError)?;
            fails(rest).map(|(k, end)| Verdict::FailsAfter(k, end))
        }
    }
}

impl FromStr for End {
    type Err = ParseVerdictError;

    fn from_str(text: &str) -> Result<End, ParseVerdictError> {
        if text == "for good" {
            return Ok(End::Never);
        }
        let rest = text.strip_prefix("until ").ok_or(ParseVerdictError)?;
        let end = match rest.strip_prefix("before ") {
            Some(before) => number(before).map(End::Before),
            None => number(rest).map(End::At),
        };
        end.ok_or(ParseVerdictError)
    }
}
