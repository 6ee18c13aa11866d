//! Timing signals as lists, sheets of named signals, formulas and claims, up-times, columns of values, over a proved library.
//! These types hold no logic of their own: the library judges and computes, and they carry its answers.
//! A call needs at most [`STACK_BYTES`] of stack, whatever its input; a thread has 2 MiB unless it asks for less.
//!
//! ```
//! use rascrunel::{Checker, Sheet};
//!
//! let sheet = Sheet::begin()?.append("needle", &[0, 23, 36])?.append("cut", &[0, 43, 52])?;
//! let mut checker = Checker::new();
//! assert!(checker.claim(&sheet, "cut", "!needle")?.holds());
//! assert_eq!(checker.claim(&sheet, "needle", "cut")?.to_string(), "fails at 5 until before 9");
//! let refusal = checker.claim(&sheet, "cut", "needel").unwrap_err();
//! assert_eq!(refusal.to_string(), "refused 13: G: the sheet has no signal named \"needel\"");
//! # Ok::<(), rascrunel::Fault>(())
//! ```
#![warn(missing_docs, missing_debug_implementations, clippy::undocumented_unsafe_blocks)]

pub mod calls;
mod checker;
mod column;
mod fault;
mod ffi;
mod formula;
mod list;
mod moment;
mod parts;
#[doc(hidden)]
pub mod quoting;
pub mod raw;
mod refusal;
mod sheet;
pub mod text;
mod uptime;
mod verdict;
pub mod whereabouts;
mod wrongs;

pub use checker::Checker;
pub use column::Column;
pub use fault::{Fault, NoFault};
pub use formula::Formula;
pub use list::{Change, Changes, List};
pub use moment::Moment;
pub use refusal::{FormulaPlace, FormulaRefusal, Place, Refusal, Which};
pub use sheet::{Sheet, Signals};
pub use uptime::{Stretch, UpTime};
pub use verdict::{End, ParseVerdictError, Verdict};
pub use whereabouts::{sheet_refusal, SheetRefusal};
pub use wrongs::Wrongs;

/// The largest date and the largest length.
pub const M: u32 = 1_073_741_823;
/// The most words of a list.
pub const LIST_WORDS: usize = 256;
/// The words of a work area.
pub const WORK_WORDS: usize = 8192;
/// The bytes of the longest sheet: 32 signals of 256 words.
pub const SHEET_BYTES: usize = 33_095;
/// The most bytes of a formula.
pub const FORMULA_BYTES: usize = 1024;
/// The most parts of a formula.
pub const FORMULA_PARTS: usize = 32;
/// The most moments of a column.
pub const COLUMN_MOMENTS: usize = 1000;
/// The most stack that a call needs, 128 KB: tests/stack.rs makes the deepest calls in threads of it.
pub const STACK_BYTES: usize = 131_072;
