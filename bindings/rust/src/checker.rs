use crate::list::{written, List};
use crate::refusal::{call_refusal, claim_refusal, Refusal};
use crate::{calls, Sheet, Verdict, WORK_WORDS};
use std::fmt;

/// Formula calls and claims, with the work area that they need. Formulas are texts; the library judges them at each call.
pub struct Checker {
    work: Vec<u32>,
}

impl Default for Checker {
    fn default() -> Checker {
        Checker::new()
    }
}

// what the work area holds says nothing
impl fmt::Debug for Checker {
    fn fmt(&self, f: &mut fmt::Formatter<'_>) -> fmt::Result {
        f.debug_struct("Checker").finish_non_exhaustive()
    }
}

impl Checker {
    /// A checker; it may be used for any number of calls.
    pub fn new() -> Checker {
        Checker { work: vec![0; WORK_WORDS] }
    }

    /// The list of a formula's signal on a sheet. Faults 10, 11, 8, 12, 13, 5 or 6.
    ///
    /// ```
    /// # use rascrunel::{Checker, Sheet};
    /// let sheet = Sheet::begin()?.append("a", &[0, 23, 36])?; // up from 5, down from 9
    /// assert_eq!(Checker::new().evaluate(&sheet, "TON(2,a)")?.words(), [0, 31, 36]);
    /// let refusal = Checker::new().evaluate(&sheet, "a.").unwrap_err();
    /// assert!(refusal.to_string().starts_with("refused 11: the formula is cut short at byte 2"));
    /// # Ok::<(), rascrunel::Fault>(())
    /// ```
    pub fn evaluate(&mut self, sheet: &Sheet, formula: impl AsRef<str>) -> Result<List, Refusal> {
        let (sheet, formula, work) = (sheet.bytes(), formula.as_ref().as_bytes(), &mut self.work);
        written(|out| calls::evaluate(sheet, formula, work, out)).map_err(|fault| call_refusal(sheet, formula, fault, work))
    }

    /// The verdict of the claim f to g on a sheet. Faults of f and then of g 10, 11, 8, 12, 13; then 5 or 6 of f, then of g.
    ///
    /// ```
    /// # use rascrunel::{Checker, End, Sheet, Verdict};
    /// let sheet = Sheet::begin()?.append("a", &[0, 23, 36])?; // up from 5, down from 9
    /// let verdict = Checker::new().claim(&sheet, "a", "TON(2,a)")?;
    /// assert_eq!(verdict, Verdict::FailsAt(5, End::Before(7)));
    /// assert_eq!(verdict.to_string(), "fails at 5 until before 7");
    /// # Ok::<(), rascrunel::Fault>(())
    /// ```
    pub fn claim(&mut self, sheet: &Sheet, f: impl AsRef<str>, g: impl AsRef<str>) -> Result<Verdict, Refusal> {
        self.claim_bytes(sheet, f.as_ref(), g.as_ref())
    }

    /// The same of bytes as they come, none of which were judged before. Faults of the sheet, then as above.
    ///
    /// ```
    /// # use rascrunel::{Checker, Fault};
    /// let refusal = Checker::new().claim_bytes(b"SGL\x01\0\0", b"\xff", b"0").unwrap_err();
    /// assert_eq!(refusal.to_string(), "refused 15: the sheet is cut, it ends at byte 6 in its count of signals");
    /// ```
    pub fn claim_bytes(&mut self, sheet: impl AsRef<[u8]>, f: impl AsRef<[u8]>, g: impl AsRef<[u8]>) -> Result<Verdict, Refusal> {
        let (sheet, f, g, work) = (sheet.as_ref(), f.as_ref(), g.as_ref(), &mut self.work);
        calls::claim(sheet, f, g, work).map_err(|fault| claim_refusal(sheet, f, g, fault, work))
    }
}
