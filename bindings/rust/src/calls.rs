//! The exported functions on Rust slices, their numbers unpacked but for the two that say so. No work of their own.
//!
//! All of them are safe: a slice is its own pointer and count, an output is borrowed for the call alone and so overlaps nothing else, and
//! the library keeps nothing after a call. What it writes, it writes within the output's count.
use crate::ffi;
use crate::{End, Fault, Verdict, FORMULA_PARTS};
use std::fmt;

fn judged(result: u32) -> Result<(), Fault> {
    Fault::of(result / 65536).map_or(Ok(()), Err)
}

fn counted(result: u32) -> Result<usize, Fault> {
    judged(result).map(|()| (result % 65536) as usize)
}

fn told(result: u32) -> Result<bool, Fault> {
    judged(result).map(|()| result % 65536 == 1)
}

// A number whose fault stands from bit 48 on, and that is something else without one.
fn placed(result: u64) -> Result<u64, Fault> {
    Fault::of((result >> 48) as u32).map_or(Ok(result), Err)
}

// A span: the earliest moment that fails in the low half, the last of its run in the high one. A moment is 2k at the instant k, 2k + 1
// in the gap after it.
fn spanned(result: u64) -> Result<Verdict, Fault> {
    let (first, last) = (result as u32, (result >> 32) as u32);
    let end = match last {
        0 => End::Never,
        _ if last % 2 == 0 => End::At(last / 2),
        _ => End::Before(last / 2 + 1),
    };
    match first {
        0 => Fault::of(last).map_or(Ok(Verdict::Holds), Err),
        _ if first % 2 == 0 => Ok(Verdict::FailsAt(first / 2, end)),
        _ => Ok(Verdict::FailsAfter(first / 2, end)),
    }
}

/// Judges a list. Faults 1, 2, then word by word 3, 4.
pub fn list_fault(list: &[u32]) -> Result<(), Fault> {
    // SAFETY: the pointer and the count are those of a slice, which is only read.
    judged(unsafe { ffi::sgl_list_fault(list.as_ptr(), list.len()) })
}

/// Writes the normal list of a list that may have words that change nothing, and tells how many words it has. Faults 1, 2, 3, 7.
pub fn tidy(list: &[u32], out: &mut [u32]) -> Result<usize, Fault> {
    // SAFETY: pointers and counts are those of slices; `list` is only read, and `out` is borrowed for this call alone.
    counted(unsafe { ffi::sgl_tidy(list.as_ptr(), list.len(), out.as_mut_ptr(), out.len()) })
}

/// The value at the instant k. Faults of the list, 9.
pub fn value_at(list: &[u32], k: u32) -> Result<bool, Fault> {
    // SAFETY: the pointer and the count are those of a slice, which is only read.
    told(unsafe { ffi::sgl_value_at(list.as_ptr(), list.len(), k) })
}

/// The value between k and k + 1. Faults of the list, 9.
pub fn value_in(list: &[u32], k: u32) -> Result<bool, Fault> {
    // SAFETY: the pointer and the count are those of a slice, which is only read.
    told(unsafe { ffi::sgl_value_in(list.as_ptr(), list.len(), k) })
}

/// Writes the value at each of rising moments, 1 for up and 0 for down; the number of a moment is 2k for the instant k, 2k + 1 for the gap
/// after it. Tells how many words were written, and how many of the list's words are dated at or before the last moment, the first word
/// counted as date 0. Faults of the list, 20, 9, 7.
///
/// ```
/// # use rascrunel::calls;
/// let mut out = [7; 4];
/// // up from 5, down from 9: in the gap 4, at 5, at 9
/// assert_eq!(calls::values(&[0, 23, 36], &[9, 10, 18], &mut out), Ok((3, 3)));
/// assert_eq!(out, [0, 1, 0, 7]);
/// ```
pub fn values(list: &[u32], moments: &[u32], out: &mut [u32]) -> Result<(usize, usize), Fault> {
    let (list, list_words, moments, moment_count) = (list.as_ptr(), list.len(), moments.as_ptr(), moments.len());
    // SAFETY: pointers and counts are those of slices; the inputs are only read, and `out` is borrowed for this call alone.
    let answer = placed(unsafe { ffi::sgl_values(list, list_words, moments, moment_count, out.as_mut_ptr(), out.len()) })?;
    Ok(((answer & 0xffff) as usize, (answer >> 16) as usize))
}

/// Whether two lists give one signal. Faults of a, of b.
pub fn equal(a: &[u32], b: &[u32]) -> Result<bool, Fault> {
    // SAFETY: pointers and counts are those of slices, which are only read.
    told(unsafe { ffi::sgl_equal(a.as_ptr(), a.len(), b.as_ptr(), b.len()) })
}

/// Whether b is up wherever a is. Faults of a, of b.
pub fn implies(a: &[u32], b: &[u32]) -> Result<Verdict, Fault> {
    // SAFETY: pointers and counts are those of slices, which are only read.
    spanned(unsafe { ffi::sgl_implies_span(a.as_ptr(), a.len(), b.as_ptr(), b.len()) })
}

#[doc(hidden)]
/// The number of `sgl_implies`, which does not say until when: 0 holds, 2k fails at k, 2k + 1 fails after k, 2^40 n refused with n.
pub fn implies_number(a: &[u32], b: &[u32]) -> u64 {
    // SAFETY: pointers and counts are those of slices, which are only read.
    unsafe { ffi::sgl_implies(a.as_ptr(), a.len(), b.as_ptr(), b.len()) }
}

/// Writes NOT, and tells how many words it has, as all calls with an output do. Faults of the list, 7.
pub fn not(a: &[u32], out: &mut [u32]) -> Result<usize, Fault> {
    // SAFETY: pointers and counts are those of slices; `a` is only read, and `out` is borrowed for this call alone.
    counted(unsafe { ffi::sgl_not(a.as_ptr(), a.len(), out.as_mut_ptr(), out.len()) })
}

/// A connective; the table by bits: bit 2 * (value of a) + (value of b). Faults of a, of b, 5, 7.
pub fn connective(table: u32, a: &[u32], b: &[u32], out: &mut [u32]) -> Result<usize, Fault> {
    // SAFETY: pointers and counts are those of slices; the lists are only read, and `out` is borrowed for this call alone.
    counted(unsafe { ffi::sgl_connective(table, a.as_ptr(), a.len(), b.as_ptr(), b.len(), out.as_mut_ptr(), out.len()) })
}

/// The rising edges. Faults of the list, 7.
pub fn rising(a: &[u32], out: &mut [u32]) -> Result<usize, Fault> {
    // SAFETY: pointers and counts are those of slices; `a` is only read, and `out` is borrowed for this call alone.
    counted(unsafe { ffi::sgl_rising(a.as_ptr(), a.len(), out.as_mut_ptr(), out.len()) })
}

/// The falling edges. Faults of the list, 7.
pub fn falling(a: &[u32], out: &mut [u32]) -> Result<usize, Fault> {
    // SAFETY: pointers and counts are those of slices; `a` is only read, and `out` is borrowed for this call alone.
    counted(unsafe { ffi::sgl_falling(a.as_ptr(), a.len(), out.as_mut_ptr(), out.len()) })
}

/// The latch in which set wins. Faults of s, of r, 5, 7.
pub fn sr(s: &[u32], r: &[u32], out: &mut [u32]) -> Result<usize, Fault> {
    // SAFETY: pointers and counts are those of slices; the lists are only read, and `out` is borrowed for this call alone.
    counted(unsafe { ffi::sgl_sr(s.as_ptr(), s.len(), r.as_ptr(), r.len(), out.as_mut_ptr(), out.len()) })
}

/// The latch in which reset wins. Faults of s, of r, 5, 7.
pub fn rs(s: &[u32], r: &[u32], out: &mut [u32]) -> Result<usize, Fault> {
    // SAFETY: pointers and counts are those of slices; the lists are only read, and `out` is borrowed for this call alone.
    counted(unsafe { ffi::sgl_rs(s.as_ptr(), s.len(), r.as_ptr(), r.len(), out.as_mut_ptr(), out.len()) })
}

/// The on-delay of d ticks. Faults of the list, 8, 5, 6, 7.
pub fn ton(d: u32, f: &[u32], out: &mut [u32]) -> Result<usize, Fault> {
    // SAFETY: pointers and counts are those of slices; `f` is only read, and `out` is borrowed for this call alone.
    counted(unsafe { ffi::sgl_ton(d, f.as_ptr(), f.len(), out.as_mut_ptr(), out.len()) })
}

/// The off-delay of d ticks. Faults of the list, 8, 5, 6, 7.
pub fn tof(d: u32, f: &[u32], out: &mut [u32]) -> Result<usize, Fault> {
    // SAFETY: pointers and counts are those of slices; `f` is only read, and `out` is borrowed for this call alone.
    counted(unsafe { ffi::sgl_tof(d, f.as_ptr(), f.len(), out.as_mut_ptr(), out.len()) })
}

/// The pulse timer of d ticks. Faults of the list, 8, 5, 6, 7.
pub fn tp(d: u32, f: &[u32], out: &mut [u32]) -> Result<usize, Fault> {
    // SAFETY: pointers and counts are those of slices; `f` is only read, and `out` is borrowed for this call alone.
    counted(unsafe { ffi::sgl_tp(d, f.as_ptr(), f.len(), out.as_mut_ptr(), out.len()) })
}

/// Writes the sheet without signals, 7 bytes. Fault 7.
pub fn begin(out: &mut [u8]) -> Result<usize, Fault> {
    // SAFETY: the pointer and the count are those of a slice that is borrowed for this call alone.
    counted(unsafe { ffi::sgl_begin(out.as_mut_ptr(), out.len()) })
}

/// Judges a sheet. Faults 14 to 17, front to back.
pub fn sheet_fault(sheet: &[u8]) -> Result<(), Fault> {
    // SAFETY: the pointer and the count are those of a slice, which is only read.
    judged(unsafe { ffi::sgl_sheet_fault(sheet.as_ptr(), sheet.len()) })
}

/// The first byte and the number of bytes of a signal's words on the sheet. Faults of the sheet, 16, 13.
pub fn lookup(sheet: &[u8], name: &[u8]) -> Result<(usize, usize), Fault> {
    // SAFETY: pointers and counts are those of slices, which are only read.
    let place = placed(unsafe { ffi::sgl_lookup(sheet.as_ptr(), sheet.len(), name.as_ptr(), name.len()) })?;
    Ok(((place >> 24) as usize, (place & 0xff_ffff) as usize))
}

/// Writes the sheet with one signal appended. Faults of the sheet, 16, of the list, 15, 7.
pub fn append(sheet: &[u8], name: &[u8], list: &[u32], out: &mut [u8]) -> Result<usize, Fault> {
    let (sheet, sheet_bytes, name, name_bytes) = (sheet.as_ptr(), sheet.len(), name.as_ptr(), name.len());
    // SAFETY: pointers and counts are those of slices; the inputs are only read, and `out` is borrowed for this call alone.
    counted(unsafe { ffi::sgl_append(sheet, sheet_bytes, name, name_bytes, list.as_ptr(), list.len(), out.as_mut_ptr(), out.len()) })
}

/// Why a formula is refused by itself, and how far it was read. It prints as both.
#[derive(Clone, Copy, Debug, PartialEq, Eq, Hash)]
#[non_exhaustive]
pub struct Stop {
    /// The fault: 10, 11, 8 or 12.
    pub fault: Fault,
    /// The length of the longest beginning that some formula begins with, which for 11 is the byte at which reading stopped. A formula of
    /// over 1,024 bytes is not read, and its place is 0.
    pub place: usize,
}

impl fmt::Display for Stop {
    fn fmt(&self, f: &mut fmt::Formatter<'_>) -> fmt::Result {
        write!(f, "{}, read up to byte {}", self.fault, self.place)
    }
}

impl std::error::Error for Stop {}

impl From<Stop> for Fault {
    fn from(stop: Stop) -> Fault {
        stop.fault
    }
}

/// Judges a formula by itself. Faults 10, 11, 8, 12, each with its place.
///
/// ```
/// # use rascrunel::{calls, Fault};
/// assert_eq!(calls::formula_fault(b"TON(5,a)"), Ok(()));
/// let stop = calls::formula_fault(b"TOM(5,a)").unwrap_err();
/// assert_eq!((stop.fault, stop.place), (Fault::Grammar, 2));
/// assert_eq!(stop.to_string(), "refused 11: outside the grammar, read up to byte 2");
/// ```
pub fn formula_fault(formula: &[u8]) -> Result<(), Stop> {
    // SAFETY: the pointer and the count are those of a slice, which is only read.
    let result = unsafe { ffi::sgl_formula_fault(formula.as_ptr(), formula.len()) };
    placed(result).map(|_| ()).map_err(|fault| Stop { fault, place: (result & 0xffff_ffff_ffff) as usize })
}

/// Writes the parts of a formula in working-out order, at most 32, as `include/rascrunel.h` tells them: the low four bits are the kind.
/// Faults 10, 11, 8, 12.
pub fn formula_parts(formula: &[u8], parts: &mut [u64; FORMULA_PARTS]) -> Result<usize, Fault> {
    // SAFETY: the pointer and the count are those of a slice, which is only read; `parts` has the 32 words that the call may write, and is
    // borrowed for this call alone.
    counted(unsafe { ffi::sgl_formula_parts(formula.as_ptr(), formula.len(), parts) })
}

/// The list of a formula's signal on a sheet. The work area has at least [`WORK_WORDS`](crate::WORK_WORDS) words, whatever they hold.
/// Faults of the sheet, 10, 11, 8, 12, 13, 18, 5 or 6 at the first part worked out that meets one, 7.
pub fn evaluate(sheet: &[u8], formula: &[u8], work: &mut [u32], out: &mut [u32]) -> Result<usize, Fault> {
    let (sheet, sheet_bytes, formula, formula_bytes) = (sheet.as_ptr(), sheet.len(), formula.as_ptr(), formula.len());
    let (work, work_words, out, out_words) = (work.as_mut_ptr(), work.len(), out.as_mut_ptr(), out.len());
    // SAFETY: pointers and counts are those of slices; the inputs are only read, `work` and `out` are each borrowed for this call alone.
    counted(unsafe { ffi::sgl_evaluate(sheet, sheet_bytes, formula, formula_bytes, work, work_words, out, out_words) })
}

/// The verdict of the claim f to g on a sheet, with a work area as above. Faults of the sheet, of f and then of g 10, 11, 8, 12, 13, then
/// 18, then 5 or 6 at the first part of f, then of g.
pub fn claim(sheet: &[u8], f: &[u8], g: &[u8], work: &mut [u32]) -> Result<Verdict, Fault> {
    let (sheet, sheet_bytes, work, work_words) = (sheet.as_ptr(), sheet.len(), work.as_mut_ptr(), work.len());
    // SAFETY: pointers and counts are those of slices; the inputs are only read, and `work` is borrowed for this call alone.
    spanned(unsafe { ffi::sgl_claim_span(sheet, sheet_bytes, f.as_ptr(), f.len(), g.as_ptr(), g.len(), work, work_words) })
}

#[doc(hidden)]
/// The number of `sgl_claim`, which does not say until when, packed as that of `implies_number`.
pub fn claim_number(sheet: &[u8], f: &[u8], g: &[u8], work: &mut [u32]) -> u64 {
    let (sheet, sheet_bytes, work, work_words) = (sheet.as_ptr(), sheet.len(), work.as_mut_ptr(), work.len());
    // SAFETY: pointers and counts are those of slices; the inputs are only read, and `work` is borrowed for this call alone.
    unsafe { ffi::sgl_claim(sheet, sheet_bytes, f.as_ptr(), f.len(), g.as_ptr(), g.len(), work, work_words) }
}

/// Up stretches before h, of each its first gap and its length: how many words were written, two a stretch, and the total in ticks. Faults
/// of the sheet, 16, 13, 19, 7.
pub fn uptime(sheet: &[u8], name: &[u8], h: u32, out: &mut [u32]) -> Result<(usize, u32), Fault> {
    let (sheet, sheet_bytes, name, name_bytes) = (sheet.as_ptr(), sheet.len(), name.as_ptr(), name.len());
    // SAFETY: pointers and counts are those of slices; the inputs are only read, and `out` is borrowed for this call alone.
    let answer = placed(unsafe { ffi::sgl_uptime(sheet, sheet_bytes, name, name_bytes, h, out.as_mut_ptr(), out.len()) })?;
    Ok(((answer & 0xffff) as usize, (answer >> 16) as u32))
}

#[cfg(test)]
mod tests {
    use super::*;

    // what a newer library may give is a fault like any other, in each packing
    #[test]
    fn numbers_not_known() {
        let new = Fault::Other(77);
        assert_eq!(judged(77 << 16), Err(new));
        assert_eq!(counted(77 << 16 | 5), Err(new));
        assert_eq!(told(77 << 16 | 1), Err(new));
        assert_eq!(placed(77 << 48), Err(new));
        assert_eq!(spanned(77 << 32), Err(new));
        assert_eq!(judged(u32::MAX), Err(Fault::Other(65535)));
        assert_eq!(new.to_string(), "refused 77: a fault that these bindings do not know");
    }
}
