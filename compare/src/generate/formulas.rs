//! Formula texts.
use super::lists::{M, STEP};
use crate::random::Random;

/// The lengths of the timers in a formula.
#[derive(Clone, Copy)]
pub enum Lengths {
    /// From 0 to this.
    To(usize),
    /// Steps of the lists that share dates.
    Steps,
    /// Of all kinds, also near M.
    Any,
}

pub fn length(random: &mut Random, lengths: Lengths) -> usize {
    match lengths {
        Lengths::To(most) => random.between(0, most),
        Lengths::Steps => STEP * random.between(0, 3),
        Lengths::Any => match random.below(12) {
            0 => M - random.below(5),
            1 => random.below(M),
            2..=5 => random.below(1000),
            _ => random.below(6),
        },
    }
}

/// What a formula may be without brackets around it.
#[derive(Clone, Copy, PartialEq, PartialOrd)]
enum Place {
    Sum,
    Product,
    Factor,
}

pub struct Writer<'a> {
    pub random: &'a mut Random,
    pub names: &'a [String],
    pub lengths: Lengths,
}

impl Writer<'_> {
    /// A formula of so many parts.
    pub fn formula(&mut self, parts: usize) -> String {
        let mut text = String::new();
        self.write(&mut text, parts, Place::Sum);
        text
    }

    fn write(&mut self, text: &mut String, parts: usize, place: Place) {
        if parts == 1 {
            text.push_str(&self.leaf());
        } else if parts == 2 || self.random.one_in(3) {
            self.write_one(text, parts - 1);
        } else {
            // an even split keeps the depth low
            let parts = parts - 1;
            let left = if self.random.one_in(3) { self.random.between(1, parts - 1) } else { parts / 2 };
            self.write_two(text, left, parts - left, place);
        }
    }

    pub fn leaf(&mut self) -> String {
        if self.names.is_empty() || self.random.one_in(16) {
            return self.random.pick(&["0", "1"]).to_string();
        }
        self.names[self.random.below(self.names.len())].clone()
    }

    fn write_one(&mut self, text: &mut String, parts: usize) {
        match self.random.below(6) {
            kind @ 0..=2 => {
                text.push(['!', '^', '~'][kind]);
                self.write(text, parts, Place::Factor);
            }
            kind => {
                let block = ["TON", "TOF", "TP"][kind - 3];
                *text += &format!("{block}({},", length(self.random, self.lengths));
                self.write(text, parts, Place::Sum);
                text.push(')');
            }
        }
    }

    fn write_two(&mut self, text: &mut String, left: usize, right: usize, place: Place) {
        let kind = self.random.below(6);
        if kind < 2 {
            text.push_str(["SR(", "RS("][kind]);
            self.write(text, left, Place::Sum);
            text.push(',');
            self.write(text, right, Place::Sum);
            text.push(')');
            return;
        }
        let (operator, own, after) =
            if kind < 4 { ('+', Place::Sum, Place::Product) } else { ('.', Place::Product, Place::Factor) };
        let bracketed = own < place;
        if bracketed {
            text.push('(');
        }
        self.write(text, left, own);
        text.push(operator);
        self.write(text, right, after);
        if bracketed {
            text.push(')');
        }
    }
}
