use crate::verdict::number;
use std::fmt;
use std::num::NonZeroU32;
use std::str::FromStr;

macro_rules! faults {
    ($($name:ident = $number:literal, $text:literal;)*) => {
        /// Why a call is refused, by the numbers of documents 01 and 02. It prints as its number and what it means.
        ///
        /// ```
        /// # use rascrunel::{Fault, List};
        /// let fault = List::new(&[0, 20]).unwrap_err();
        /// assert_eq!(fault, Fault::NoChange);
        /// assert_eq!(fault.number(), 4);
        /// assert_eq!(fault.to_string(), "refused 4: word changes nothing");
        /// ```
        #[derive(Clone, Copy, Debug, PartialEq, Eq, Hash)]
        #[non_exhaustive]
        pub enum Fault {
            $(#[doc = concat!(stringify!($number), ": ", $text)] $name,)*
            /// A number that this version of the bindings does not know, as a newer library may give it.
            Other(u32),
        }

        impl Fault {
            /// The fault of a number, none for 0.
            pub fn of(number: u32) -> Option<Fault> {
                match number {
                    0 => None,
                    $($number => Some(Fault::$name),)*
                    _ => Some(Fault::Other(number)),
                }
            }

            /// The documents' number.
            pub fn number(self) -> u32 {
                match self {
                    $(Fault::$name => $number,)*
                    Fault::Other(number) => number,
                }
            }

            /// What the fault means, in one line.
            pub fn text(self) -> &'static str {
                match self {
                    $(Fault::$name => $text,)*
                    Fault::Other(_) => "a fault that these bindings do not know",
                }
            }
        }
    };
}

faults! {
    ListLength = 1, "list empty or over 256 words";
    FirstWord = 2, "first word above 1";
    DateOrder = 3, "date not above the last";
    NoChange = 4, "word changes nothing";
    TooLong = 5, "exact answer over 256 words";
    ChangesAfterM = 6, "exact answer changes after 1073741823";
    ShortOutput = 7, "output shorter than the answer";
    LengthAboveM = 8, "length above 1073741823";
    Date = 9, "instant 0, or date above 1073741823";
    FormulaLength = 10, "formula empty or over 1,024 bytes";
    Grammar = 11, "outside the grammar";
    TooComplex = 12, "over 32 parts, or depth over 16";
    UnknownName = 13, "name not in the sheet";
    Mark = 14, "sheet's mark or version wrong or cut";
    SheetSize = 15, "sheet's count missing or over 32, sheet cut or too long, or append to 32 signals";
    Name = 16, "name malformed or repeated";
    SheetList = 17, "a list in the sheet breaks the rules of lists";
    ShortWork = 18, "work area under 8,192 words";
    HorizonAboveM = 19, "horizon above 1073741823 (of the program also: not written as a length is)";
    MomentOrder = 20, "moment not after the one before it, or over 1,000 moments";
}

impl From<NonZeroU32> for Fault {
    fn from(number: NonZeroU32) -> Fault {
        Fault::of(number.get()).unwrap_or(Fault::Other(number.get()))
    }
}

/// The fault of a number, which is not 0.
impl TryFrom<u32> for Fault {
    type Error = NoFault;

    fn try_from(number: u32) -> Result<Fault, NoFault> {
        Fault::of(number).ok_or(NoFault)
    }
}

/// As the programs print a refusal.
///
/// ```
/// # use rascrunel::Fault;
/// assert_eq!("refused 13".parse(), Ok(Fault::UnknownName));
/// assert!("refused 013".parse::<Fault>().is_err() && "refused 0".parse::<Fault>().is_err());
/// ```
impl FromStr for Fault {
    type Err = NoFault;

    fn from_str(line: &str) -> Result<Fault, NoFault> {
        line.strip_prefix("refused ").and_then(number).ok_or(NoFault)?.try_into()
    }
}

/// The number 0, or a line that is no refusal.
#[derive(Clone, Copy, Debug, PartialEq, Eq, Hash)]
#[non_exhaustive]
pub struct NoFault;

impl fmt::Display for NoFault {
    fn fmt(&self, f: &mut fmt::Formatter<'_>) -> fmt::Result {
        write!(f, "no fault: a fault is `refused N`, with N from 1 on")
    }
}

impl std::error::Error for NoFault {}

impl From<Fault> for u32 {
    fn from(fault: Fault) -> u32 {
        fault.number()
    }
}

impl fmt::Display for Fault {
    fn fmt(&self, f: &mut fmt::Formatter<'_>) -> fmt::Result {
        write!(f, "refused {}: {}", self.number(), self.text())
    }
}

impl std::error::Error for Fault {}
