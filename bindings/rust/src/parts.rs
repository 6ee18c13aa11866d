//! The parts of a formula as the library tells them, and each part as a formula of its own.
use crate::{calls, Fault, FORMULA_PARTS};

/// A part, with the bytes of its name or its length in ticks.
#[derive(Clone, Copy, Debug, PartialEq, Eq)]
pub(crate) enum Part<'a> {
    Constant(&'static str),
    Name(&'a [u8]),
    Prefix(&'static str),
    Timer(&'static str, u64),
    Chain(Chain),
    Latch(&'static str),
}

/// What chains operands, by how it binds.
#[derive(Clone, Copy, Debug, PartialEq, Eq, PartialOrd, Ord)]
pub(crate) enum Chain {
    Or,
    And,
}

impl<'a> Part<'a> {
    // The part that a word of the library tells; none for what these bindings do not know.
    fn of(word: u64, formula: &'a [u8]) -> Option<Part<'a>> {
        let value = word >> 4;
        Some(match word & 15 {
            0 => Part::Constant("0"),
            1 => Part::Constant("1"),
            2 => {
                let (start, count) = (value as usize >> 4, value as usize & 15);
                Part::Name(formula.get(start..start.checked_add(count)?)?)
            }
            3 => Part::Prefix("!"),
            4 => Part::Prefix("^"),
            5 => Part::Prefix("~"),
            6 => Part::Timer("TON", value),
            7 => Part::Timer("TOF", value),
            8 => Part::Timer("TP", value),
            9 => Part::Chain(Chain::And),
            10 => Part::Chain(Chain::Or),
            11 => Part::Latch("SR"),
            12 => Part::Latch("RS"),
            _ => return None,
        })
    }
}

/// The parts of a formula in working-out order; none where one is not known, or the formula is refused.
pub(crate) fn parts(formula: &[u8]) -> Option<Vec<Part<'_>>> {
    let mut words = [0; FORMULA_PARTS];
    let count = calls::formula_parts(formula, &mut words).ok()?;
    words.get(..count)?.iter().map(|&word| Part::of(word, formula)).collect()
}

// A part as a text: where its own parts begin, and what it is chained by at its outside, none for a factor.
struct Printed {
    text: Vec<u8>,
    begins: usize,
    chain: Option<Chain>,
}

impl Printed {
    // As it stands where it is a factor, or a chain that binds at least so tightly (none: only a factor may stand there), else in brackets.
    fn within(self, least: Option<Chain>) -> Vec<u8> {
        match (self.chain, least) {
            (None, _) => self.text,
            (Some(chain), Some(least)) if chain >= least => self.text,
            _ => [b"(", self.text.as_slice(), b")"].concat(),
        }
    }
}

/// Each part as a formula of its own, with the fewest brackets, in working-out order. One that the library does not read back to the same
/// parts is none, so that nothing leans on how it is printed.
pub(crate) fn printed(parts: &[Part<'_>]) -> Vec<Option<Vec<u8>>> {
    let mut stack: Vec<Printed> = Vec::new();
    let mut texts = Vec::new();
    for (i, part) in parts.iter().enumerate() {
        let Some(top) = print(*part, i, &mut stack) else { break };
        let again = self::parts(&top.text);
        texts.push((again.as_deref() == Some(&parts[top.begins..=i])).then(|| top.text.clone()));
        stack.push(top);
    }
    texts.resize(parts.len(), None);
    texts
}

fn print(part: Part<'_>, at: usize, stack: &mut Vec<Printed>) -> Option<Printed> {
    let mut begins = at;
    let mut operand = |least| {
        let printed = stack.pop()?;
        begins = printed.begins;
        Some(printed.within(least))
    };
    let (pieces, chain) = match part {
        Part::Constant(text) => (vec![text.into()], None),
        Part::Name(name) => (vec![name.to_vec()], None),
        Part::Prefix(sign) => (vec![sign.into(), operand(None)?], None),
        Part::Timer(block, length) => (vec![block.into(), format!("({length},").into(), operand(Some(Chain::Or))?, b")".into()], None),
        Part::Latch(block) => {
            let (reset, set) = (operand(Some(Chain::Or))?, operand(Some(Chain::Or))?);
            (vec![block.into(), b"(".into(), set, b",".into(), reset, b")".into()], None)
        }
        // chains group to the left: only there one of the same kind stands without brackets
        Part::Chain(Chain::Or) => {
            let (right, left) = (operand(Some(Chain::And))?, operand(Some(Chain::Or))?);
            (vec![left, b"+".into(), right], Some(Chain::Or))
        }
        Part::Chain(Chain::And) => {
            let (right, left) = (operand(None)?, operand(Some(Chain::And))?);
            (vec![left, b".".into(), right], Some(Chain::And))
        }
    };
    Some(Printed { text: pieces.concat(), begins, chain })
}

/// The first name of a formula that the sheet does not have, and the byte at which it stands.
pub(crate) fn unknown_name<'a>(sheet: &[u8], formula: &'a [u8]) -> Option<(usize, &'a [u8])> {
    let names = parts(formula)?.into_iter().filter_map(|part| if let Part::Name(name) = part { Some(name) } else { None });
    let name = names.into_iter().find(|name| calls::lookup(sheet, name) == Err(Fault::UnknownName))?;
    // the names are pieces of the formula
    Some((name.as_ptr() as usize - formula.as_ptr() as usize, name))
}

#[cfg(test)]
#[allow(dead_code)] // each test takes of it what it needs
#[path = "../tests/random/mod.rs"]
mod random;

#[cfg(test)]
#[allow(dead_code)]
#[path = "../tests/trees/mod.rs"]
mod trees;

#[cfg(test)]
mod tests {
    use super::random::Random;
    use super::trees::{needless_brackets, tree, Tree};
    use super::*;

    // Each part of random formulas, printed, is read back to the part's own tree, and has no bracket that could be left out.
    #[test]
    fn printed_and_read_back() {
        let mut random = Random(20);
        let (mut formulas, mut bracketed) = (0, 0);
        while formulas < 5000 {
            let parts_at_most = 1 + random.below(32);
            let made = tree(&mut random, parts_at_most, &["a", "needle", "b2", "abcdefgh"], &mut |random| random.below(1 << 30));
            let text = made.text(&mut random);
            // nested too deep
            let Some(parts) = parts(text.as_bytes()) else { continue };
            let wanted = made.parts();
            assert_eq!(parts.len(), wanted.len(), "{text}");
            for (printed, wanted) in printed(&parts).into_iter().zip(wanted) {
                let printed = String::from_utf8(printed.unwrap_or_else(|| panic!("{text}"))).unwrap();
                assert_eq!(Tree::read(&printed).as_ref(), Some(wanted), "{text}: {printed}");
                assert_eq!(needless_brackets(&printed), 0, "{text}: {printed}");
                bracketed += usize::from(printed.contains('('));
            }
            formulas += 1;
        }
        assert!(bracketed > 10_000, "{bracketed}");
    }

    // What is not read back to the same parts is not told.
    #[test]
    fn not_read_back() {
        let parts = [Part::Name(b"a"), Part::Name(b"B"), Part::Chain(Chain::Or), Part::Prefix("!")];
        let texts = printed(&parts);
        assert_eq!(texts, [Some(b"a".to_vec()), None, None, None]);
        assert_eq!(printed(&[Part::Prefix("!"), Part::Name(b"a")]), [None, None]);
        assert_eq!(Part::of(13, b"a"), None);
        assert_eq!(Part::of(2 | 1 << 4 | 1 << 8, b"a"), None);
        assert_eq!(Part::of(u64::MAX - 13, b"a"), None);
    }
}
