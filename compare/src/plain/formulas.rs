//! Formulas: read by recursive descent into parts in the order in which they are worked out.
use super::lists::M;
use super::operations::{One, Two, AND, OR};
use super::sheets::{Name, Place, Sheet};

const MOST_BYTES: usize = 1024;
const MOST_DEPTH: usize = 16;
pub const MOST_PARTS: usize = 32;

#[derive(Clone, Copy)]
pub enum Part {
    Constant(bool),
    /// Its place is known once it is found on a sheet.
    Name(Name, Place),
    One(One),
    Two(Two),
}

/// Room for the parts of a formula.
pub struct Formula {
    parts: [Part; MOST_PARTS],
    count: usize,
}

/// The text outside the grammar.
struct Wrong;

struct Reader<'a> {
    text: &'a [u8],
    at: usize,
    formula: &'a mut Formula,
    too_long: bool,
    too_deep: bool,
}

impl Reader<'_> {
    fn next(&self) -> u8 {
        self.text.get(self.at).copied().unwrap_or(0)
    }

    fn skip(&mut self, token: &[u8]) -> bool {
        let found = self.text[self.at..].starts_with(token);
        if found {
            self.at += token.len();
        }
        found
    }

    fn need(&mut self, token: &[u8]) -> Result<(), Wrong> {
        if self.skip(token) {
            Ok(())
        } else {
            Err(Wrong)
        }
    }

    /// A part more: counted always, stored while there is room.
    fn put(&mut self, part: Part, depth: usize) {
        if self.formula.count < MOST_PARTS {
            self.formula.parts[self.formula.count] = part;
        }
        self.formula.count += 1;
        self.too_deep |= depth > MOST_DEPTH;
    }

    fn sum(&mut self, depth: usize) -> Result<(), Wrong> {
        self.product(depth)?;
        while self.skip(b"+") {
            self.product(depth)?;
            self.put(Part::Two(Two::Connective(OR)), depth);
        }
        Ok(())
    }

    fn product(&mut self, depth: usize) -> Result<(), Wrong> {
        self.factor(depth)?;
        while self.skip(b".") {
            self.factor(depth)?;
            self.put(Part::Two(Two::Connective(AND)), depth);
        }
        Ok(())
    }

    fn factor(&mut self, depth: usize) -> Result<(), Wrong> {
        match self.next() {
            b'!' => self.before(One::Not, depth),
            b'^' => self.before(One::Rising, depth),
            b'~' => self.before(One::Falling, depth),
            b'(' => {
                self.at += 1;
                self.sum(depth + 1)?;
                self.need(b")")
            }
            digit @ (b'0' | b'1') => {
                self.at += 1;
                self.put(Part::Constant(digit == b'1'), depth);
                Ok(())
            }
            b'S' => self.latch(b"SR(", Two::Sr, depth),
            b'R' => self.latch(b"RS(", Two::Rs, depth),
            b'T' => self.timer(depth),
            _ => self.name(depth),
        }
    }

    /// An operator before its operand.
    fn before(&mut self, operator: One, depth: usize) -> Result<(), Wrong> {
        self.at += 1;
        self.factor(depth + 1)?;
        self.put(Part::One(operator), depth);
        Ok(())
    }

    fn latch(&mut self, opening: &[u8], latch: Two, depth: usize) -> Result<(), Wrong> {
        self.need(opening)?;
        self.sum(depth + 1)?;
        self.need(b",")?;
        self.sum(depth + 1)?;
        self.need(b")")?;
        self.put(Part::Two(latch), depth);
        Ok(())
    }

    fn timer(&mut self, depth: usize) -> Result<(), Wrong> {
        let timer = if self.skip(b"TON(") {
            One::Ton
        } else if self.skip(b"TOF(") {
            One::Tof
        } else {
            self.need(b"TP(")?;
            One::Tp
        };
        let length = self.length()?;
        self.need(b",")?;
        self.sum(depth + 1)?;
        self.need(b")")?;
        self.put(Part::One(timer(length)), depth);
        Ok(())
    }

    /// A decimal without needless zeros; above M it is only noted.
    fn length(&mut self) -> Result<u32, Wrong> {
        if self.skip(b"0") {
            return Ok(0);
        }
        let begun = self.at;
        let mut length: u32 = 0;
        while self.next().is_ascii_digit() {
            length = length.saturating_mul(10).saturating_add((self.next() - b'0') as u32);
            self.at += 1;
        }
        if self.at == begun {
            return Err(Wrong);
        }
        self.too_long |= length > M;
        Ok(length)
    }

    fn name(&mut self, depth: usize) -> Result<(), Wrong> {
        if !self.next().is_ascii_lowercase() {
            return Err(Wrong);
        }
        let mut name = [0; 8];
        let mut length = 0;
        while self.next().is_ascii_lowercase() || self.next().is_ascii_digit() {
            if length == name.len() {
                return Err(Wrong);
            }
            name[length] = self.next();
            length += 1;
            self.at += 1;
        }
        self.put(Part::Name(name, Place::default()), depth);
        Ok(())
    }
}

impl Formula {
    pub fn new() -> Formula {
        Formula { parts: [Part::Constant(false); MOST_PARTS], count: 0 }
    }

    /// Reads a text: 10, 11, 8, 12.
    fn read(&mut self, text: &[u8]) -> Result<(), u32> {
        if text.is_empty() || text.len() > MOST_BYTES {
            return Err(10);
        }
        let mut reader = Reader { text, at: 0, formula: self, too_long: false, too_deep: false };
        if reader.sum(0).is_err() || reader.at < text.len() {
            return Err(11);
        }
        if reader.too_long {
            return Err(8);
        }
        if reader.formula.count > MOST_PARTS || reader.too_deep {
            return Err(12);
        }
        Ok(())
    }

    /// Reads a text for a sheet: 10, 11, 8, 12, 13.
    pub fn read_for(&mut self, sheet: &Sheet, text: &[u8]) -> Result<(), u32> {
        self.read(text)?;
        for part in &mut self.parts[..self.count] {
            if let Part::Name(name, place) = part {
                *place = sheet.find(name)?;
            }
        }
        Ok(())
    }

    pub fn parts(&self) -> &[Part] {
        &self.parts[..self.count]
    }
}
