use std::error::Error;
use std::fmt;

/// What is wrong with a file, place by place: the first twenty, and how many more there are.
#[derive(Clone, Debug, PartialEq, Eq)]
#[non_exhaustive]
pub struct Wrongs<W> {
    /// The first, in the file's order, at most twenty.
    pub first: Vec<W>,
    /// How many there are after them.
    pub more: usize,
}

impl<W> Wrongs<W> {
    /// The first of them, in order.
    pub fn iter(&self) -> std::slice::Iter<'_, W> {
        self.first.iter()
    }

    pub(crate) fn none() -> Wrongs<W> {
        Wrongs { first: Vec::new(), more: 0 }
    }

    pub(crate) fn one(wrong: W) -> Wrongs<W> {
        Wrongs { first: vec![wrong], more: 0 }
    }

    pub(crate) fn add(&mut self, wrong: impl FnOnce() -> W) {
        if self.first.len() < 20 {
            self.first.push(wrong());
        } else {
            self.more += 1;
        }
    }

    /// What was made, if nothing is wrong.
    pub(crate) fn or<T>(self, made: T) -> Result<T, Wrongs<W>> {
        if self.first.is_empty() {
            Ok(made)
        } else {
            Err(self)
        }
    }
}

impl<W> IntoIterator for Wrongs<W> {
    type Item = W;
    type IntoIter = std::vec::IntoIter<W>;

    fn into_iter(self) -> Self::IntoIter {
        self.first.into_iter()
    }
}

impl<'a, W> IntoIterator for &'a Wrongs<W> {
    type Item = &'a W;
    type IntoIter = std::slice::Iter<'a, W>;

    fn into_iter(self) -> Self::IntoIter {
        self.iter()
    }
}

/// Each on a line, then how many more.
impl<W: fmt::Display> fmt::Display for Wrongs<W> {
    fn fmt(&self, f: &mut fmt::Formatter<'_>) -> fmt::Result {
        for (i, wrong) in self.first.iter().enumerate() {
            write!(f, "{}{wrong}", if i == 0 { "" } else { "\n" })?;
        }
        match self.more {
            0 => Ok(()),
            more => write!(f, "\nand {more} more"),
        }
    }
}

impl<W: Error> Error for Wrongs<W> {}
