// The exported functions, as include/rascrunel.h declares them: a slice is a pointer and a count, never a Rust slice.
extern "C" {
    pub fn sgl_list_fault(list: *const u32, list_words: usize) -> u32;
    pub fn sgl_tidy(list: *const u32, list_words: usize, out: *mut u32, out_words: usize) -> u32;
    pub fn sgl_value_at(list: *const u32, list_words: usize, k: u32) -> u32;
    pub fn sgl_value_in(list: *const u32, list_words: usize, k: u32) -> u32;
    pub fn sgl_values(
        list: *const u32,
        list_words: usize,
        moments: *const u32,
        moment_count: usize,
        out: *mut u32,
        out_words: usize,
    ) -> u64;
    pub fn sgl_equal(a: *const u32, a_words: usize, b: *const u32, b_words: usize) -> u32;
    pub fn sgl_implies(a: *const u32, a_words: usize, b: *const u32, b_words: usize) -> u64;
    pub fn sgl_implies_span(a: *const u32, a_words: usize, b: *const u32, b_words: usize) -> u64;
    pub fn sgl_not(a: *const u32, a_words: usize, out: *mut u32, out_words: usize) -> u32;
    pub fn sgl_connective(table: u32, a: *const u32, a_words: usize, b: *const u32, b_words: usize, out: *mut u32, out_words: usize)
        -> u32;
    pub fn sgl_rising(a: *const u32, a_words: usize, out: *mut u32, out_words: usize) -> u32;
    pub fn sgl_falling(a: *const u32, a_words: usize, out: *mut u32, out_words: usize) -> u32;
    pub fn sgl_sr(s: *const u32, s_words: usize, r: *const u32, r_words: usize, out: *mut u32, out_words: usize) -> u32;
    pub fn sgl_rs(s: *const u32, s_words: usize, r: *const u32, r_words: usize, out: *mut u32, out_words: usize) -> u32;
    pub fn sgl_ton(d: u32, f: *const u32, f_words: usize, out: *mut u32, out_words: usize) -> u32;
    pub fn sgl_tof(d: u32, f: *const u32, f_words: usize, out: *mut u32, out_words: usize) -> u32;
    pub fn sgl_tp(d: u32, f: *const u32, f_words: usize, out: *mut u32, out_words: usize) -> u32;
    pub fn sgl_begin(out: *mut u8, out_bytes: usize) -> u32;
    pub fn sgl_sheet_fault(sheet: *const u8, sheet_bytes: usize) -> u32;
    pub fn sgl_lookup(sheet: *const u8, sheet_bytes: usize, name: *const u8, name_bytes: usize) -> u64;
    pub fn sgl_append(
        sheet: *const u8,
        sheet_bytes: usize,
        name: *const u8,
        name_bytes: usize,
        list: *const u32,
        list_words: usize,
        out: *mut u8,
        out_bytes: usize,
    ) -> u32;
    pub fn sgl_formula_fault(formula: *const u8, formula_bytes: usize) -> u64;
    pub fn sgl_formula_parts(formula: *const u8, formula_bytes: usize, parts: *mut [u64; 32]) -> u32;
    pub fn sgl_evaluate(
        sheet: *const u8,
        sheet_bytes: usize,
        formula: *const u8,
        formula_bytes: usize,
        work: *mut u32,
        work_words: usize,
        out: *mut u32,
        out_words: usize,
    ) -> u32;
    pub fn sgl_claim(
        sheet: *const u8,
        sheet_bytes: usize,
        f: *const u8,
        f_bytes: usize,
        g: *const u8,
        g_bytes: usize,
        work: *mut u32,
        work_words: usize,
    ) -> u64;
    pub fn sgl_claim_span(
        sheet: *const u8,
        sheet_bytes: usize,
        f: *const u8,
        f_bytes: usize,
        g: *const u8,
        g_bytes: usize,
        work: *mut u32,
        work_words: usize,
    ) -> u64;
    pub fn sgl_uptime(
        sheet: *const u8,
        sheet_bytes: usize,
        name: *const u8,
        name_bytes: usize,
        h: u32,
        out: *mut u32,
        out_words: usize,
    ) -> u64;
}
