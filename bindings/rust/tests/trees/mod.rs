// Formulas as trees: random ones, written with needless brackets, and read back; nothing here asks the library.
use super::random::Random;

#[derive(Clone, Debug, PartialEq, Eq)]
pub enum Tree {
    Leaf(String),
    Prefix(char, Box<Tree>),
    Timer(String, u32, Box<Tree>),
    Pair(Pair, Box<Tree>, Box<Tree>),
}

#[derive(Clone, Copy, Debug, PartialEq, Eq)]
pub enum Pair {
    Or,
    And,
    Sr,
    Rs,
}

use Tree::*;

/// Of this many parts at most, with names and lengths as they are drawn.
pub fn tree(random: &mut Random, parts: u32, names: &[&str], length: &mut dyn FnMut(&mut Random) -> u32) -> Tree {
    if parts < 2 || random.below(8) == 0 {
        return match random.below(8) {
            0 => Leaf("0".into()),
            1 => Leaf("1".into()),
            _ => Leaf(names[random.below(names.len() as u32) as usize].into()),
        };
    }
    let sort = if parts == 2 { random.below(2) } else { random.below(6) };
    match sort {
        0 => Prefix(['!', '^', '~'][random.below(3) as usize], tree(random, parts - 1, names, length).into()),
        1 => {
            let block = ["TON", "TOF", "TP"][random.below(3) as usize].to_string();
            let d = length(random);
            Timer(block, d, tree(random, parts - 1, names, length).into())
        }
        _ => {
            let left = 1 + random.below(parts - 2);
            let (left, right) = (tree(random, left, names, length), tree(random, parts - 1 - left, names, length));
            Pair([Pair::Or, Pair::And, Pair::Or, Pair::And, Pair::Sr, Pair::Rs][random.below(6) as usize], left.into(), right.into())
        }
    }
}

impl Tree {
    /// As a text, with needless brackets now and then.
    pub fn text(&self, random: &mut Random) -> String {
        // how tightly the text binds: 0 a sum, 1 a product, 2 a factor
        fn put(tree: &Tree, least: u32, random: &mut Random) -> String {
            let (text, binds) = match tree {
                Leaf(text) => (text.clone(), 2),
                Prefix(sign, of) => (format!("{sign}{}", put(of, 2, random)), 2),
                Timer(block, d, of) => (format!("{block}({d},{})", put(of, 0, random)), 2),
                Pair(Pair::Or, left, right) => (format!("{}+{}", put(left, 0, random), put(right, 1, random)), 0),
                Pair(Pair::And, left, right) => (format!("{}.{}", put(left, 1, random), put(right, 2, random)), 1),
                Pair(Pair::Sr, left, right) => (format!("SR({},{})", put(left, 0, random), put(right, 0, random)), 2),
                Pair(Pair::Rs, left, right) => (format!("RS({},{})", put(left, 0, random), put(right, 0, random)), 2),
            };
            if binds < least || random.below(12) == 0 {
                format!("({text})")
            } else {
                text
            }
        }
        put(self, 0, random)
    }

    /// Its parts in working-out order.
    pub fn parts(&self) -> Vec<&Tree> {
        let mut all = match self {
            Leaf(_) => Vec::new(),
            Prefix(_, of) | Timer(_, _, of) => of.parts(),
            Pair(_, left, right) => [left.parts(), right.parts()].concat(),
        };
        all.push(self);
        all
    }

    /// Its names, in the order in which they stand.
    pub fn names(&self) -> Vec<&str> {
        let name = |tree: &&'_ Tree| matches!(tree, Leaf(text) if text != "0" && text != "1");
        self.parts().into_iter().filter(name).map(|tree| if let Leaf(text) = tree { text.as_str() } else { "" }).collect()
    }

    /// The tree of a text that is a formula.
    pub fn read(text: &str) -> Option<Tree> {
        let mut rest = text;
        let tree = sum(&mut rest)?;
        rest.is_empty().then_some(tree)
    }
}

fn take(rest: &mut &str, what: &str) -> Option<()> {
    *rest = rest.strip_prefix(what)?;
    Some(())
}

fn sum(rest: &mut &str) -> Option<Tree> {
    let mut left = product(rest)?;
    while take(rest, "+").is_some() {
        left = Pair(Pair::Or, left.into(), product(rest)?.into());
    }
    Some(left)
}

fn product(rest: &mut &str) -> Option<Tree> {
    let mut left = factor(rest)?;
    while take(rest, ".").is_some() {
        left = Pair(Pair::And, left.into(), factor(rest)?.into());
    }
    Some(left)
}

// A run of characters of a kind.
fn run<'a>(rest: &mut &'a str, kind: impl Fn(char) -> bool) -> &'a str {
    let end = rest.find(|c| !kind(c)).unwrap_or(rest.len());
    let (run, after) = rest.split_at(end);
    *rest = after;
    run
}

fn factor(rest: &mut &str) -> Option<Tree> {
    for sign in ['!', '^', '~'] {
        if take(rest, &sign.to_string()).is_some() {
            return Some(Prefix(sign, factor(rest)?.into()));
        }
    }
    if take(rest, "(").is_some() {
        let inner = sum(rest)?;
        take(rest, ")")?;
        return Some(inner);
    }
    for (word, pair) in [("SR(", Pair::Sr), ("RS(", Pair::Rs)] {
        if take(rest, word).is_some() {
            let left = sum(rest)?;
            take(rest, ",")?;
            let right = sum(rest)?;
            take(rest, ")")?;
            return Some(Pair(pair, left.into(), right.into()));
        }
    }
    for block in ["TON", "TOF", "TP"] {
        if take(rest, &format!("{block}(")).is_some() {
            let digits = run(rest, |c| c.is_ascii_digit());
            take(rest, ",")?;
            let of = sum(rest)?;
            take(rest, ")")?;
            return Some(Timer(block.into(), digits.parse().ok()?, of.into()));
        }
    }
    if let Some(constant) = ["0", "1"].into_iter().find(|&c| rest.starts_with(c)) {
        take(rest, constant)?;
        return Some(Leaf(constant.into()));
    }
    let name = run(rest, |c| c.is_ascii_lowercase() || c.is_ascii_digit());
    (!name.is_empty()).then(|| Leaf(name.into()))
}

/// How many of the pairs of brackets of a formula could be left out, one at a time, without changing what is read.
pub fn needless_brackets(text: &str) -> usize {
    let tree = Tree::read(text);
    let mut open = Vec::new();
    let mut needless = 0;
    for (i, c) in text.char_indices() {
        match c {
            '(' => open.push(i),
            ')' => {
                let from = open.pop().unwrap();
                let without: String = text.char_indices().filter(|&(k, _)| k != i && k != from).map(|(_, c)| c).collect();
                needless += usize::from(Tree::read(&without) == tree);
            }
            _ => {}
        }
    }
    needless
}
