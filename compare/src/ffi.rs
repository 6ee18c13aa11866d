//! The calls of the proved library, as include/rascrunel.h declares them, on slices; and the clock of the time that this process has used.
mod c {
    #[repr(C)]
    pub struct Time {
        pub seconds: i64,
        pub nanoseconds: i64,
    }

    /// CLOCK_PROCESS_CPUTIME_ID of Linux.
    pub const PROCESS_TIME: i32 = 2;

    type List = *const u32;
    type Text = *const u8;
    type Out = *mut u32;

    extern "C" {
        pub fn clock_gettime(clock: i32, time: *mut Time) -> i32;
        pub fn sgl_tidy(list: List, list_words: usize, out: Out, out_words: usize) -> u32;
        pub fn sgl_value_at(list: List, list_words: usize, k: u32) -> u32;
        pub fn sgl_value_in(list: List, list_words: usize, k: u32) -> u32;
        pub fn sgl_values(
            list: List,
            list_words: usize,
            moments: List,
            moment_count: usize,
            out: Out,
            out_words: usize,
        ) -> u64;
        pub fn sgl_not(a: List, a_words: usize, out: Out, out_words: usize) -> u32;
        pub fn sgl_rising(a: List, a_words: usize, out: Out, out_words: usize) -> u32;
        pub fn sgl_falling(a: List, a_words: usize, out: Out, out_words: usize) -> u32;
        pub fn sgl_ton(d: u32, f: List, f_words: usize, out: Out, out_words: usize) -> u32;
        pub fn sgl_tof(d: u32, f: List, f_words: usize, out: Out, out_words: usize) -> u32;
        pub fn sgl_tp(d: u32, f: List, f_words: usize, out: Out, out_words: usize) -> u32;
        pub fn sgl_connective(
            table: u32,
            a: List,
            a_words: usize,
            b: List,
            b_words: usize,
            out: Out,
            out_words: usize,
        ) -> u32;
        pub fn sgl_sr(s: List, s_words: usize, r: List, r_words: usize, out: Out, out_words: usize) -> u32;
        pub fn sgl_rs(s: List, s_words: usize, r: List, r_words: usize, out: Out, out_words: usize) -> u32;
        pub fn sgl_implies(a: List, a_words: usize, b: List, b_words: usize) -> u64;
        pub fn sgl_implies_span(a: List, a_words: usize, b: List, b_words: usize) -> u64;
        pub fn sgl_evaluate(
            sheet: Text,
            sheet_bytes: usize,
            formula: Text,
            formula_bytes: usize,
            work: Out,
            work_words: usize,
            out: Out,
            out_words: usize,
        ) -> u32;
        pub fn sgl_claim(
            sheet: Text,
            sheet_bytes: usize,
            f: Text,
            f_bytes: usize,
            g: Text,
            g_bytes: usize,
            work: Out,
            work_words: usize,
        ) -> u64;
        pub fn sgl_claim_span(
            sheet: Text,
            sheet_bytes: usize,
            f: Text,
            f_bytes: usize,
            g: Text,
            g_bytes: usize,
            work: Out,
            work_words: usize,
        ) -> u64;
        pub fn sgl_uptime(
            sheet: Text,
            sheet_bytes: usize,
            name: Text,
            name_bytes: usize,
            h: u32,
            out: Out,
            out_words: usize,
        ) -> u64;
    }
}

/// The nanoseconds of processor time that this process has used.
pub fn process_time() -> u64 {
    let mut time = c::Time { seconds: 0, nanoseconds: 0 };
    let status = unsafe { c::clock_gettime(c::PROCESS_TIME, &mut time) };
    assert_eq!(status, 0, "no clock of processor time");
    time.seconds as u64 * 1_000_000_000 + time.nanoseconds as u64
}

// Each slice is lent for the call, outputs apart from inputs: what the header asks of its callers.

pub fn tidy(list: &[u32], out: &mut [u32]) -> u32 {
    unsafe { c::sgl_tidy(list.as_ptr(), list.len(), out.as_mut_ptr(), out.len()) }
}

/// The single call of a moment: the value at an instant, or in a gap.
pub fn value(list: &[u32], moment: u32) -> u32 {
    if moment.is_multiple_of(2) {
        unsafe { c::sgl_value_at(list.as_ptr(), list.len(), moment / 2) }
    } else {
        unsafe { c::sgl_value_in(list.as_ptr(), list.len(), moment / 2) }
    }
}

pub fn values(list: &[u32], moments: &[u32], out: &mut [u32]) -> u64 {
    unsafe { c::sgl_values(list.as_ptr(), list.len(), moments.as_ptr(), moments.len(), out.as_mut_ptr(), out.len()) }
}

pub fn not(a: &[u32], out: &mut [u32]) -> u32 {
    unsafe { c::sgl_not(a.as_ptr(), a.len(), out.as_mut_ptr(), out.len()) }
}

pub fn rising(a: &[u32], out: &mut [u32]) -> u32 {
    unsafe { c::sgl_rising(a.as_ptr(), a.len(), out.as_mut_ptr(), out.len()) }
}

pub fn falling(a: &[u32], out: &mut [u32]) -> u32 {
    unsafe { c::sgl_falling(a.as_ptr(), a.len(), out.as_mut_ptr(), out.len()) }
}

pub fn ton(length: u32, f: &[u32], out: &mut [u32]) -> u32 {
    unsafe { c::sgl_ton(length, f.as_ptr(), f.len(), out.as_mut_ptr(), out.len()) }
}

pub fn tof(length: u32, f: &[u32], out: &mut [u32]) -> u32 {
    unsafe { c::sgl_tof(length, f.as_ptr(), f.len(), out.as_mut_ptr(), out.len()) }
}

pub fn tp(length: u32, f: &[u32], out: &mut [u32]) -> u32 {
    unsafe { c::sgl_tp(length, f.as_ptr(), f.len(), out.as_mut_ptr(), out.len()) }
}

pub fn connective(bits: u32, a: &[u32], b: &[u32], out: &mut [u32]) -> u32 {
    unsafe { c::sgl_connective(bits, a.as_ptr(), a.len(), b.as_ptr(), b.len(), out.as_mut_ptr(), out.len()) }
}

pub fn sr(s: &[u32], r: &[u32], out: &mut [u32]) -> u32 {
    unsafe { c::sgl_sr(s.as_ptr(), s.len(), r.as_ptr(), r.len(), out.as_mut_ptr(), out.len()) }
}

pub fn rs(s: &[u32], r: &[u32], out: &mut [u32]) -> u32 {
    unsafe { c::sgl_rs(s.as_ptr(), s.len(), r.as_ptr(), r.len(), out.as_mut_ptr(), out.len()) }
}

pub fn implies(a: &[u32], b: &[u32]) -> u64 {
    unsafe { c::sgl_implies(a.as_ptr(), a.len(), b.as_ptr(), b.len()) }
}

pub fn implies_span(a: &[u32], b: &[u32]) -> u64 {
    unsafe { c::sgl_implies_span(a.as_ptr(), a.len(), b.as_ptr(), b.len()) }
}

pub fn evaluate(sheet: &[u8], formula: &[u8], work: &mut [u32], out: &mut [u32]) -> u32 {
    unsafe {
        c::sgl_evaluate(
            sheet.as_ptr(),
            sheet.len(),
            formula.as_ptr(),
            formula.len(),
            work.as_mut_ptr(),
            work.len(),
            out.as_mut_ptr(),
            out.len(),
        )
    }
}

pub fn claim(sheet: &[u8], f: &[u8], g: &[u8], work: &mut [u32]) -> u64 {
    unsafe {
        c::sgl_claim(
            sheet.as_ptr(),
            sheet.len(),
            f.as_ptr(),
            f.len(),
            g.as_ptr(),
            g.len(),
            work.as_mut_ptr(),
            work.len(),
        )
    }
}

pub fn claim_span(sheet: &[u8], f: &[u8], g: &[u8], work: &mut [u32]) -> u64 {
    unsafe {
        c::sgl_claim_span(
            sheet.as_ptr(),
            sheet.len(),
            f.as_ptr(),
            f.len(),
            g.as_ptr(),
            g.len(),
            work.as_mut_ptr(),
            work.len(),
        )
    }
}

pub fn uptime(sheet: &[u8], name: &[u8], h: u32, out: &mut [u32]) -> u64 {
    unsafe { c::sgl_uptime(sheet.as_ptr(), sheet.len(), name.as_ptr(), name.len(), h, out.as_mut_ptr(), out.len()) }
}
