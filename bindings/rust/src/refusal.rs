//! Where a claim or a formula is refused, found by asking the library of its pieces. It is asked only after a refusal.
use crate::calls::Stop;
use crate::parts::{parts, printed, unknown_name};
use crate::quoting::Quoted;
use crate::whereabouts::{sheet_refusal, SheetRefusal};
use crate::{calls, Fault, FORMULA_BYTES, LIST_WORDS, M};
use std::fmt;

/// Why a claim or a formula call is refused, and where. It prints as one line in words.
///
/// ```
/// # use rascrunel::{Checker, Fault, Sheet};
/// let sheet = Sheet::begin()?.append("needle", &[0, 23, 36])?;
/// let refusal = Checker::new().claim(&sheet, "needle", "needel.1").unwrap_err();
/// assert_eq!(refusal.fault, Fault::UnknownName);
/// assert_eq!(refusal.to_string(), "refused 13: G: the sheet has no signal named \"needel\"");
/// # Ok::<(), Fault>(())
/// ```
#[derive(Clone, Debug, PartialEq, Eq)]
#[non_exhaustive]
pub struct Refusal {
    /// The fault that the library gives.
    pub fault: Fault,
    /// What it is of.
    pub place: Place,
}

/// What a refusal is of.
#[derive(Clone, Debug, PartialEq, Eq)]
#[non_exhaustive]
pub enum Place {
    /// The sheet.
    Sheet(Box<SheetRefusal>),
    /// A formula.
    Formula(Which, FormulaPlace),
    /// Neither, or nothing is known of it.
    Untold,
}

/// Which formula of a call.
#[derive(Clone, Copy, Debug, PartialEq, Eq, Hash)]
#[non_exhaustive]
pub enum Which {
    /// The only one.
    Only,
    /// The first of a claim: wherever F is up, G is.
    F,
    /// The second of a claim.
    G,
}

/// Why a formula is none by itself, and where. It prints as one line in words.
///
/// ```
/// # use rascrunel::Formula;
/// let refusal = "a b".parse::<Formula>().unwrap_err();
/// assert_eq!(refusal.fault.number(), 11);
/// assert!(refusal.to_string().starts_with("refused 11: byte 1, at \" b\","));
/// ```
#[derive(Clone, Debug, PartialEq, Eq)]
#[non_exhaustive]
pub struct FormulaRefusal {
    /// The fault that the library gives: 10, 11, 8 or 12.
    pub fault: Fault,
    /// Where it is met.
    pub place: FormulaPlace,
}

/// Where in a formula a fault is met. Bytes are counted from 0, parts from 1 in working-out order: operands before their operator.
#[derive(Clone, Debug, PartialEq, Eq)]
#[non_exhaustive]
pub enum FormulaPlace {
    /// 10: the number of its bytes.
    Length(usize),
    /// 11: the byte at which reading stopped, the number of all bytes where the formula is cut short.
    #[non_exhaustive]
    Byte {
        /// The byte's place.
        byte: usize,
        /// What stands from there on.
        rest: Vec<u8>,
        /// What might stand there instead.
        expected: Vec<&'static str>,
        /// A rule that what stands there may break.
        hint: Option<&'static str>,
    },
    /// 8: a length above M.
    #[non_exhaustive]
    Ticks {
        /// The place of its first digit.
        byte: usize,
        /// Its digits.
        digits: String,
    },
    /// 13: a name that the sheet does not have.
    #[non_exhaustive]
    Name {
        /// A place at which its bytes stand.
        byte: usize,
        /// The name.
        name: String,
    },
    /// 5 and 6: the first part that meets the fault.
    #[non_exhaustive]
    Part {
        /// Its text, written with as few brackets as there can be.
        text: String,
        /// Its number.
        number: usize,
        /// How many parts the formula has.
        of: usize,
    },
    /// Nothing more is known.
    Untold,
}

/// The refusal of a claim with this fault.
pub(crate) fn claim_refusal(sheet: &[u8], f: &[u8], g: &[u8], fault: Fault, work: &mut [u32]) -> Refusal {
    refusal(sheet, &[(Which::F, f), (Which::G, g)], fault, work)
}

/// The refusal of a formula call with this fault.
pub(crate) fn call_refusal(sheet: &[u8], formula: &[u8], fault: Fault, work: &mut [u32]) -> Refusal {
    refusal(sheet, &[(Which::Only, formula)], fault, work)
}

// It is the sheet's if that is refused so, else of the first formula whose own call is refused so.
fn refusal(sheet: &[u8], formulas: &[(Which, &[u8])], fault: Fault, work: &mut [u32]) -> Refusal {
    if let Some(of_sheet) = sheet_refusal(sheet).filter(|of_sheet| of_sheet.fault == fault) {
        return of_sheet.into();
    }
    let mut refused = |formula: &[u8]| calls::evaluate(sheet, formula, work, &mut [0; LIST_WORDS]) == Err(fault);
    // a short work area is no formula's
    let of = formulas.iter().filter(|_| fault != Fault::ShortWork).find(|(_, formula)| refused(formula));
    let place = of.map_or(Place::Untold, |&(which, formula)| {
        let place = match fault {
            Fault::UnknownName => unknown_name(sheet, formula)
                .map(|(byte, name)| FormulaPlace::Name { byte, name: String::from_utf8_lossy(name).into_owned() }),
            Fault::TooLong | Fault::ChangesAfterM => part(formula, refused),
            _ => place_alone(formula, fault),
        };
        Place::Formula(which, place.unwrap_or(FormulaPlace::Untold))
    });
    Refusal { fault, place }
}

// The first part that is refused by itself.
fn part(formula: &[u8], mut refused: impl FnMut(&[u8]) -> bool) -> Option<FormulaPlace> {
    let parts = parts(formula)?;
    for (i, text) in printed(&parts).into_iter().enumerate() {
        // after one that cannot be asked for none is the first for sure
        let text = text?;
        if refused(&text) {
            return Some(FormulaPlace::Part { text: String::from_utf8(text).ok()?, number: i + 1, of: parts.len() });
        }
    }
    None
}

/// The fault of a formula by itself, and where.
pub(crate) fn formula_refusal(formula: &[u8]) -> Option<FormulaRefusal> {
    let fault = calls::formula_fault(formula).err()?.fault;
    Some(FormulaRefusal { fault, place: place_alone(formula, fault).unwrap_or(FormulaPlace::Untold) })
}

fn place_alone(formula: &[u8], fault: Fault) -> Option<FormulaPlace> {
    match (fault, calls::formula_fault(formula)) {
        (Fault::FormulaLength, _) => Some(FormulaPlace::Length(formula.len())),
        (Fault::Grammar, Err(Stop { fault: Fault::Grammar, place })) => {
            let (read, rest) = formula.split_at_checked(place)?;
            let expected = expected(read);
            let hint = hint(read, rest, &expected);
            Some(FormulaPlace::Byte { byte: place, rest: rest.to_vec(), expected, hint })
        }
        (Fault::LengthAboveM, _) => above_m(formula),
        _ => None,
    }
}

// What may stand after the beginning of a formula: each thing that makes a longer beginning of one.
fn expected(read: &[u8]) -> Vec<&'static str> {
    let goes_on = |with: &str| {
        let longer = [read, with.as_bytes()].concat();
        match calls::formula_fault(&longer) {
            Err(Stop { fault: Fault::Grammar, place }) => place == longer.len(),
            judged => !too_long_or_empty(judged),
        }
    };
    // where an operand is to come; elsewhere letters and digits go on with a name
    if goes_on("!") {
        let operands = ["a", "0", "1", "!", "^", "~", "(", "SR", "RS", "TON", "TOF", "TP"];
        return operands.into_iter().filter(|with| goes_on(with)).map(|with| if with == "a" { "a name" } else { with }).collect();
    }
    // letters and digits that go on with a name are not told
    let mut all: Vec<&str> = ["+", ".", ",", ")", "(", "R", "S", "O", "P", "N", "F"].into_iter().filter(|with| goes_on(with)).collect();
    if goes_on("9") && !goes_on("z") {
        all.push("a digit");
    }
    // what has a fault of its own besides the grammar's is read to its end
    let whole = calls::formula_fault(read);
    if !matches!(whole, Err(Stop { fault: Fault::Grammar, .. })) && !too_long_or_empty(whole) {
        all.push("the end");
    }
    all
}

// Such a text is not read.
fn too_long_or_empty(judged: Result<(), Stop>) -> bool {
    matches!(judged, Err(Stop { fault: Fault::FormulaLength, .. }))
}

// What people write most often that is no formula: blanks, and names that are none.
fn hint(read: &[u8], rest: &[u8], expected: &[&str]) -> Option<&'static str> {
    let &there = rest.first()?;
    if there.is_ascii_whitespace() {
        return Some("a formula has no spaces");
    }
    let of_a_name = there.is_ascii_alphanumeric() || there == b'_' || there == b'-' || !there.is_ascii();
    let after_a_name = expected.contains(&"+") && read.last().is_some_and(u8::is_ascii_alphanumeric);
    let named = of_a_name && (expected.contains(&"a name") || after_a_name);
    named.then_some("a name is 1 to 8 lowercase letters and digits, a letter first")
}

// The first length that is refused in a formula that has nothing else, and is as short as any with such a length.
fn above_m(formula: &[u8]) -> Option<FormulaPlace> {
    let mut byte = 0;
    for run in formula.chunk_by(|a, b| a.is_ascii_digit() == b.is_ascii_digit()) {
        let alone = [b"TP(", run, b",0)"].concat();
        if matches!(calls::formula_fault(&alone), Err(Stop { fault: Fault::LengthAboveM, .. })) {
            return Some(FormulaPlace::Ticks { byte, digits: String::from_utf8_lossy(run).into_owned() });
        }
        byte += run.len();
    }
    None
}

// The words of a place; what the fault means where there is none.
struct Words<'a>(Fault, &'a FormulaPlace);

impl fmt::Display for Words<'_> {
    fn fmt(&self, f: &mut fmt::Formatter<'_>) -> fmt::Result {
        let fault = self.0;
        match self.1 {
            FormulaPlace::Length(0) => write!(f, "the formula is empty"),
            FormulaPlace::Length(bytes) => write!(f, "the formula has {bytes} bytes, over {FORMULA_BYTES}"),
            FormulaPlace::Byte { byte, rest, expected, hint } => {
                if rest.is_empty() {
                    write!(f, "the formula is cut short at byte {byte}")?;
                } else {
                    write!(f, "byte {byte}, at {}, is outside the grammar", Quoted(rest))?;
                }
                let quoted = |text: &&str| if text.contains(' ') { text.to_string() } else { format!("`{text}`") };
                let all: Vec<String> = expected.iter().map(quoted).collect();
                match all.split_last() {
                    None => {}
                    Some((only, [])) => write!(f, ": expected {only}")?,
                    Some((last, others)) => write!(f, ": expected {} or {last}", others.join(", "))?,
                }
                hint.map_or(Ok(()), |hint| write!(f, " ({hint})"))
            }
            FormulaPlace::Ticks { byte, digits } => {
                write!(f, "the length {}, at byte {byte}, is above {M}", Quoted(digits.as_bytes()))
            }
            FormulaPlace::Name { name, .. } => write!(f, "the sheet has no signal named {}", Quoted(name.as_bytes())),
            FormulaPlace::Part { text, number, of } => {
                let what = match fault {
                    Fault::TooLong => "its signal has over 256 words",
                    Fault::ChangesAfterM => "its signal changes after 1073741823",
                    _ => fault.text(),
                };
                write!(f, "the part {} (part {number} of {of}): {what}", Quoted(text.as_bytes()))
            }
            FormulaPlace::Untold => write!(f, "{}", fault.text()),
        }
    }
}

impl fmt::Display for FormulaRefusal {
    fn fmt(&self, f: &mut fmt::Formatter<'_>) -> fmt::Result {
        write!(f, "refused {}: {}", self.fault.number(), Words(self.fault, &self.place))
    }
}

impl fmt::Display for Refusal {
    fn fmt(&self, f: &mut fmt::Formatter<'_>) -> fmt::Result {
        match &self.place {
            Place::Sheet(refusal) => write!(f, "{refusal}"),
            Place::Untold => write!(f, "{}", self.fault),
            Place::Formula(which, place) => {
                let which = match which {
                    Which::Only => "",
                    Which::F => "F: ",
                    Which::G => "G: ",
                };
                write!(f, "refused {}: {which}{}", self.fault.number(), Words(self.fault, place))
            }
        }
    }
}

impl std::error::Error for Refusal {}

impl std::error::Error for FormulaRefusal {}

impl From<SheetRefusal> for Refusal {
    fn from(refusal: SheetRefusal) -> Refusal {
        Refusal { fault: refusal.fault, place: Place::Sheet(Box::new(refusal)) }
    }
}

impl From<Refusal> for Fault {
    fn from(refusal: Refusal) -> Fault {
        refusal.fault
    }
}

impl From<FormulaRefusal> for Fault {
    fn from(refusal: FormulaRefusal) -> Fault {
        refusal.fault
    }
}

impl From<SheetRefusal> for Fault {
    fn from(refusal: SheetRefusal) -> Fault {
        refusal.fault
    }
}
