use crate::parts::{parts, Part};
use crate::refusal::{formula_refusal, FormulaRefusal};
use std::fmt;
use std::str::FromStr;

/// A formula that the library accepts by itself, whatever the sheet: to be judged once, before there is a sheet.
/// [`Checker`](crate::Checker) takes it as it takes a `&str`.
///
/// ```
/// # use rascrunel::Formula;
/// let formula: Formula = "TON(20,!needle).cut".parse()?;
/// assert_eq!(formula.names(), ["needle", "cut"]);
/// assert_eq!(formula.to_string(), "TON(20,!needle).cut");
/// assert!("TON(20,!needle".parse::<Formula>().is_err());
/// # Ok::<(), rascrunel::FormulaRefusal>(())
/// ```
#[derive(Clone, Debug, PartialEq, Eq, Hash)]
pub struct Formula {
    text: String,
}

impl Formula {
    /// The formula of this text, if it is one.
    pub fn new(text: impl Into<String>) -> Result<Formula, FormulaRefusal> {
        let text = text.into();
        formula_refusal(text.as_bytes()).map_or(Ok(Formula { text }), Err)
    }

    /// Its text.
    pub fn as_str(&self) -> &str {
        &self.text
    }

    /// Its names, in the order in which they stand, as often as they do.
    pub fn names(&self) -> Vec<&str> {
        let parts = parts(self.text.as_bytes()).unwrap_or_default();
        let name = |part| if let Part::Name(name) = part { std::str::from_utf8(name).ok() } else { None };
        parts.into_iter().filter_map(name).collect()
    }
}

impl FromStr for Formula {
    type Err = FormulaRefusal;

    fn from_str(text: &str) -> Result<Formula, FormulaRefusal> {
        Formula::new(text)
    }
}

impl TryFrom<&str> for Formula {
    type Error = FormulaRefusal;

    fn try_from(text: &str) -> Result<Formula, FormulaRefusal> {
        Formula::new(text)
    }
}

impl TryFrom<String> for Formula {
    type Error = FormulaRefusal;

    fn try_from(text: String) -> Result<Formula, FormulaRefusal> {
        Formula::new(text)
    }
}

impl From<Formula> for String {
    fn from(formula: Formula) -> String {
        formula.text
    }
}

impl AsRef<str> for Formula {
    fn as_ref(&self) -> &str {
        &self.text
    }
}

impl fmt::Display for Formula {
    fn fmt(&self, f: &mut fmt::Formatter<'_>) -> fmt::Result {
        f.write_str(&self.text)
    }
}
