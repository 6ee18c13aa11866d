//! The same evaluation in plain Rust: safe, straightforward, optimised by the compiler only. The calls have the shape of ours,
//! their answers packed into one number as include/rascrunel.h says.
#![forbid(unsafe_code)]
mod answers;
mod claims;
mod columns;
mod delays;
mod formulas;
mod lists;
mod operations;
mod pulses;
mod sheets;
mod tidying;
mod uptimes;

use lists::{judge, M, WORDS};
use operations::{implication, End, One, Two, Verdict};
pub use tidying::is_idle;

fn packed(answer: Result<usize, u32>) -> u32 {
    match answer {
        Ok(count) => count as u32,
        Err(fault) => 65536 * fault,
    }
}

fn packed_verdict(answer: Result<Verdict, u32>) -> u64 {
    match answer {
        Ok(Verdict::Holds) => 0,
        Ok(Verdict::FailsAt(k, _)) => 2 * k as u64,
        Ok(Verdict::FailsAfter(k, _)) => 2 * k as u64 + 1,
        Err(fault) => (fault as u64) << 40,
    }
}

fn packed_span(answer: Result<Verdict, u32>) -> u64 {
    let (first, end) = match answer {
        Ok(Verdict::Holds) => return 0,
        Ok(Verdict::FailsAt(k, end)) => (2 * k, end),
        Ok(Verdict::FailsAfter(k, end)) => (2 * k + 1, end),
        Err(fault) => return (fault as u64) << 32,
    };
    let last = match end {
        End::At(k) => 2 * k,
        End::Before(k) => 2 * k - 1,
        End::Never => 0,
    };
    (last as u64) << 32 | first as u64
}

/// A count of words, and a total or a number of words passed.
fn packed_pair(answer: Result<(usize, u32), u32>) -> u64 {
    match answer {
        Ok((count, number)) => (number as u64) << 16 | count as u64,
        Err(fault) => (fault as u64) << 48,
    }
}

/// The first words of a slot handed to the output; 7.
fn deliver(slot: &[u32; WORDS], count: usize, out: &mut [u32]) -> Result<usize, u32> {
    out.get_mut(..count).ok_or(7u32)?.copy_from_slice(&slot[..count]);
    Ok(count)
}

/// Faults of the list, 8, 5, 6, 7.
fn call_of_one(operation: One, a: &[u32], out: &mut [u32]) -> Result<usize, u32> {
    judge(a)?;
    if let One::Ton(length) | One::Tof(length) | One::Tp(length) = operation {
        if length > M {
            return Err(8);
        }
    }
    let mut slot = [0; WORDS];
    let count = operations::one(operation, a, &mut slot)?;
    deliver(&slot, count, out)
}

/// Faults of a, of b, 5, 7.
fn call_of_two(operation: Two, a: &[u32], b: &[u32], out: &mut [u32]) -> Result<usize, u32> {
    judge(a)?;
    judge(b)?;
    let mut slot = [0; WORDS];
    let count = operations::two(operation, a, b, &mut slot)?;
    deliver(&slot, count, out)
}

fn call_of_implication(a: &[u32], b: &[u32]) -> Result<Verdict, u32> {
    judge(a)?;
    judge(b)?;
    Ok(implication(a, b))
}

// The calls. None is put into its caller: ours cannot be.

#[inline(never)]
pub fn tidy(list: &[u32], out: &mut [u32]) -> u32 {
    packed(tidying::tidy(list, out))
}

#[inline(never)]
pub fn not(a: &[u32], out: &mut [u32]) -> u32 {
    packed(call_of_one(One::Not, a, out))
}

#[inline(never)]
pub fn rising(a: &[u32], out: &mut [u32]) -> u32 {
    packed(call_of_one(One::Rising, a, out))
}

#[inline(never)]
pub fn falling(a: &[u32], out: &mut [u32]) -> u32 {
    packed(call_of_one(One::Falling, a, out))
}

#[inline(never)]
pub fn ton(length: u32, f: &[u32], out: &mut [u32]) -> u32 {
    packed(call_of_one(One::Ton(length), f, out))
}

#[inline(never)]
pub fn tof(length: u32, f: &[u32], out: &mut [u32]) -> u32 {
    packed(call_of_one(One::Tof(length), f, out))
}

#[inline(never)]
pub fn tp(length: u32, f: &[u32], out: &mut [u32]) -> u32 {
    packed(call_of_one(One::Tp(length), f, out))
}

#[inline(never)]
pub fn connective(bits: u32, a: &[u32], b: &[u32], out: &mut [u32]) -> u32 {
    let table = [[bits & 1 != 0, bits & 2 != 0], [bits & 4 != 0, bits & 8 != 0]];
    packed(call_of_two(Two::Connective(table), a, b, out))
}

#[inline(never)]
pub fn sr(s: &[u32], r: &[u32], out: &mut [u32]) -> u32 {
    packed(call_of_two(Two::Sr, s, r, out))
}

#[inline(never)]
pub fn rs(s: &[u32], r: &[u32], out: &mut [u32]) -> u32 {
    packed(call_of_two(Two::Rs, s, r, out))
}

#[inline(never)]
pub fn implies(a: &[u32], b: &[u32]) -> u64 {
    packed_verdict(call_of_implication(a, b))
}

#[inline(never)]
pub fn implies_span(a: &[u32], b: &[u32]) -> u64 {
    packed_span(call_of_implication(a, b))
}

#[inline(never)]
pub fn evaluate(sheet: &[u8], formula: &[u8], work: &mut [u32], out: &mut [u32]) -> u32 {
    packed(claims::evaluate(sheet, formula, work, out))
}

#[inline(never)]
pub fn claim_span(sheet: &[u8], f: &[u8], g: &[u8], work: &mut [u32]) -> u64 {
    packed_span(claims::claim(sheet, f, g, work))
}

#[inline(never)]
pub fn uptime(sheet: &[u8], name: &[u8], h: u32, out: &mut [u32]) -> u64 {
    packed_pair(uptimes::uptime(sheet, name, h, out))
}

#[inline(never)]
pub fn values(list: &[u32], moments: &[u32], out: &mut [u32]) -> u64 {
    packed_pair(columns::values(list, moments, out))
}
