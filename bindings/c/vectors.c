/* Document 01's cases, document 02's pulse timer, up-times, spans and columns through the header: every exported function and every
 * macro, each macro on refusals too. C99, C11 and C++. */
#include <stdio.h>
#include <string.h>
#include "rascrunel.h"

static int failed;
static uint32_t out[SGL_LIST_WORDS], work[SGL_WORK_WORDS];
static uint8_t bytes[SGL_SHEET_BYTES];

#define N(list) (list), sizeof(list) / sizeof *(list)
#define OUT out, SGL_LIST_WORDS
#define TEXT(s) (const uint8_t *)(s), sizeof(s) - 1
#define REFUSED(n) (65536u * (n))

static void same(int line, uint64_t got, uint64_t want) {
    if (got != want) {
        printf("line %d: %llu, not %llu\n", line, (unsigned long long)got, (unsigned long long)want);
        failed = 1;
    }
}

static void words(int line, uint32_t got, const uint32_t *want, uint32_t count) {
    same(line, got, count);
    for (uint32_t i = 0; i < count; i++)
        same(line, out[i], want[i]);
}

#define IS(got, want) same(__LINE__, (got), (want))
#define WORDS(got, ...) do { const uint32_t want_[] = {__VA_ARGS__}; words(__LINE__, (got), want_, sizeof want_ / 4); } while (0)

static const uint32_t f[] = {0, 23, 36}, e[] = {0, 22}, l[] = {0, 21}, one[] = {1}, none[] = {0}, last[] = {0, 4294967294u},
    loose[] = {0, 16, 23, 27, 36}, bad2[] = {2}, bad3[] = {0, 23, 21}, bad4[] = {0, 20}, up[] = {0, 4294967295u},
    two[] = {0, 22, 34};
static const uint8_t printed[] = {83, 71, 76, 1, 0, 1, 0, 97, 0, 0, 0, 0, 0, 0, 0, 3, 0, 0, 0, 0, 0, 23, 0, 0, 0, 36, 0, 0, 0};

static void lists(void) {
    IS(sgl_list_fault(N(f)), 0);
    IS(sgl_list_fault(f, 0), REFUSED(1));
    IS(sgl_list_fault(N(bad2)), REFUSED(2));
    IS(sgl_list_fault(N(bad3)), REFUSED(3));
    IS(sgl_list_fault(N(bad4)), REFUSED(4));
    IS(sgl_value_at(N(f), 5), 1);
    IS(sgl_value_at(N(f), 0), REFUSED(9));
    IS(sgl_value_in(N(f), 0), 0);
    IS(sgl_value_in(N(l), 5), 1);
    IS(sgl_value_in(N(f), SGL_M + 1), REFUSED(9));
    IS(sgl_equal(N(e), N(e)), 1);
    IS(sgl_equal(N(e), N(l)), 0);
    IS(sgl_equal(N(e), N(bad4)), REFUSED(4));
    IS(sgl_implies(N(e), N(f)), 0);
    IS(sgl_implies(N(l), N(e)), 2 * 5 + 1);
    IS(sgl_implies(N(one), N(f)), 1);
    IS(sgl_implies(N(bad2), N(f)), 2ull << 40);
}

/* The whole output, which held sevens and holds them again. */
static void whole(int line, const uint32_t *want, uint32_t count) {
    for (uint32_t i = 0; i < SGL_LIST_WORDS; i++) {
        same(line, out[i], i < count ? want[i] : 7);
        out[i] = 7;
    }
}

static void sevens(void) {
    for (uint32_t i = 0; i < SGL_LIST_WORDS; i++)
        out[i] = 7;
}

static void tidied(int line, uint32_t got, const uint32_t *want, uint32_t count) {
    same(line, got, count);
    whole(line, want, count);
}

#define TIDY(got, ...) do { const uint32_t want_[] = {__VA_ARGS__}; tidied(__LINE__, (got), want_, sizeof want_ / 4); } while (0)
#define NOT_TIDIED(got, fault) do { IS((got), REFUSED(fault)); whole(__LINE__, NULL, 0); } while (0)

/* Words that change nothing are dropped; those that change an instant only, or only what comes after it, are kept. */
static void tidyings(void) {
    static const uint32_t idle[] = {1, 7, 11, 4294967295u}, ends[] = {0, 23, 36, 40, 4294967292u}, down3[] = {1, 13, 18},
        high[] = {4294967295u, 4, 4}, again[] = {0, 23, 23}, falls[] = {0, 40, 39}, back[] = {0, 23, 19, 36};
    uint32_t full[SGL_LIST_WORDS + 1];
    for (uint32_t i = 0; i <= SGL_LIST_WORDS; i++)
        full[i] = 4 * i;
    sevens();
    TIDY(sgl_tidy(N(loose), OUT), 0, 23, 36);
    TIDY(sgl_tidy(N(ends), OUT), 0, 23, 36);
    TIDY(sgl_tidy(N(f), OUT), 0, 23, 36);
    TIDY(sgl_tidy(N(e), OUT), 0, 22);
    TIDY(sgl_tidy(N(l), OUT), 0, 21);
    TIDY(sgl_tidy(N(down3), OUT), 1, 13, 18);
    TIDY(sgl_tidy(N(last), OUT), 0, 4294967294u);
    TIDY(sgl_tidy(N(idle), OUT), 1);
    TIDY(sgl_tidy(full, SGL_LIST_WORDS, OUT), 0);
    TIDY(sgl_tidy(N(one), OUT), 1);
    /* outputs just long enough, and a word short */
    TIDY(sgl_tidy(N(loose), out, 3), 0, 23, 36);
    NOT_TIDIED(sgl_tidy(N(loose), out, 2), 7);
    TIDY(sgl_tidy(N(ends), out, 3), 0, 23, 36);
    NOT_TIDIED(sgl_tidy(N(ends), out, 2), 7);
    TIDY(sgl_tidy(N(idle), out, 1), 1);
    NOT_TIDIED(sgl_tidy(N(idle), out, 0), 7);
    /* refused: nothing is written, and 7 comes last; a word that would be dropped has a date too */
    NOT_TIDIED(sgl_tidy(f, 0, OUT), 1);
    NOT_TIDIED(sgl_tidy(N(full), OUT), 1);
    NOT_TIDIED(sgl_tidy(N(full), out, 0), 1);
    NOT_TIDIED(sgl_tidy(N(bad2), OUT), 2);
    NOT_TIDIED(sgl_tidy(N(high), out, 0), 2);
    NOT_TIDIED(sgl_tidy(N(bad3), OUT), 3);
    NOT_TIDIED(sgl_tidy(N(again), OUT), 3);
    NOT_TIDIED(sgl_tidy(N(falls), OUT), 3);
    NOT_TIDIED(sgl_tidy(N(back), out, 0), 3);
}

static void operations(void) {
    WORDS(sgl_not(N(f), OUT), 1, 20, 39);
    IS(sgl_not(N(none), out, 0), REFUSED(7));
    WORDS(sgl_connective(8, N(f), N(e), OUT), 0, 22);
    WORDS(sgl_connective(14, N(f), N(l), OUT), 0, 23);
    WORDS(sgl_connective(4 + 16, N(f), N(e), OUT), 0, 21, 36);
    WORDS(sgl_rising(N(f), OUT), 0, 22);
    WORDS(sgl_rising(N(l), OUT), 0);
    WORDS(sgl_falling(N(e), OUT), 0);
    WORDS(sgl_falling(N(f), OUT), 0, 38);
    WORDS(sgl_sr(N(e), N(e), OUT), 0, 23);
    WORDS(sgl_sr(N(f), N(f), OUT), 0, 23, 36);
    WORDS(sgl_rs(N(e), N(e), OUT), 0);
    WORDS(sgl_ton(3, N(f), OUT), 0, 35, 36);
    WORDS(sgl_ton(4, N(f), OUT), 0);
    WORDS(sgl_ton(0, N(e), OUT), 0, 22);
    WORDS(sgl_ton(3, N(one), OUT), 0, 15);
    WORDS(sgl_ton(1, N(last), OUT), 0);
    IS(sgl_ton(1, N(up), OUT), REFUSED(6));
    IS(sgl_ton(SGL_M + 1, N(f), OUT), REFUSED(8));
    WORDS(sgl_tof(2, N(f), OUT), 0, 23, 44);
    WORDS(sgl_tof(2, N(e), OUT), 0, 23, 30);
    IS(sgl_tof(1, N(last), OUT), REFUSED(6));
    WORDS(sgl_tp(3, N(f), OUT), 0, 23, 32);
    WORDS(sgl_tp(10, N(f), OUT), 0, 23, 60);
    WORDS(sgl_tp(3, N(e), OUT), 0, 23, 32);
    WORDS(sgl_tp(3, N(l), OUT), 0);
    WORDS(sgl_tp(3, N(one), OUT), 0);
    WORDS(sgl_tp(0, N(f), OUT), 0);
    WORDS(sgl_tp(2, N(two), OUT), 0, 23, 28, 35, 40);
    WORDS(sgl_tp(3, N(two), OUT), 0, 23, 44);
    WORDS(sgl_tp(4, N(two), OUT), 0, 23, 36);
    IS(sgl_tp(1, N(last), OUT), REFUSED(6));
    IS(sgl_tp(SGL_M + 1, N(f), OUT), REFUSED(8));
    IS(sgl_tp(SGL_M + 1, N(bad4), OUT), REFUSED(4));
    IS(sgl_tp(3, N(f), out, 2), REFUSED(7));
}

static void place(int line, uint64_t got, uint32_t fault, uint32_t start, uint32_t count) {
    same(line, SGL_PLACE_FAULT(got), fault);
    same(line, SGL_PLACE_START(got), start);
    same(line, SGL_PLACE_COUNT(got), count);
}

#define PLACE(got, fault, start, count) place(__LINE__, (got), (fault), (start), (count))

static void sheets(void) {
    uint8_t empty[7];
    IS(sgl_begin(empty, 6), REFUSED(7));
    IS(sgl_begin(N(empty)), 7);
    IS(sgl_append(N(empty), TEXT("a"), N(f), bytes, sizeof bytes), sizeof printed);
    IS(memcmp(bytes, printed, sizeof printed) == 0, 1);
    IS(sgl_append(N(printed), TEXT("a"), N(f), bytes, sizeof bytes), REFUSED(16));
    IS(sgl_append(N(printed), TEXT("b"), N(bad4), bytes, sizeof bytes), REFUSED(4));
    IS(sgl_sheet_fault(N(printed)), 0);
    IS(sgl_sheet_fault(TEXT("SGL\2\0")), REFUSED(14));
    IS(sgl_sheet_fault(TEXT("SGL\1\0\1\0")), REFUSED(15));
    IS(sgl_lookup(N(printed), TEXT("a")), 17ull << 24 | 12);
    IS(sgl_lookup(N(printed), TEXT("b")), 13ull << 48);
    IS(sgl_lookup(N(printed), TEXT("A")), 16ull << 48);
    PLACE(sgl_lookup(N(printed), TEXT("a")), 0, 17, 12);
    PLACE(sgl_lookup(N(printed), TEXT("b")), 13, 0, 0);
    PLACE(sgl_lookup(N(printed), TEXT("A")), 16, 0, 0);
    PLACE(sgl_lookup(printed, 4, TEXT("a")), 14, 0, 0);
    PLACE(18ull << 48, 18, 0, 0);
}

/* Words taken from a sheet, where they are not aligned; none past them, and none of a refusal. */
static void looked_up(void) {
    static const uint32_t high[] = {1, 0x04030201u, 4294967292u};
    uint32_t n = sgl_append(N(printed), TEXT("b2"), N(high), bytes, sizeof bytes);
    uint64_t a = sgl_lookup(bytes, n, TEXT("a")), b = sgl_lookup(bytes, n, TEXT("b2")), no = sgl_lookup(bytes, n, TEXT("c"));
    IS(n, sizeof printed + 22);
    IS(SGL_PLACE_START(b), 39);
    IS(SGL_PLACE_WORDS(a), 3);
    IS(SGL_PLACE_WORDS(b), 3);
    IS(SGL_PLACE_WORDS(no), 0);
    for (uint32_t i = 0; i < 3; i++) {
        IS(sgl_place_word(bytes, a, i), f[i]);
        IS(sgl_place_word(bytes, b, i), high[i]);
        IS(sgl_place_word(bytes, no, i), 0);
    }
    IS(sgl_place_word(bytes, a, 3), 0);
    IS(sgl_place_word(bytes, b, 4294967295u), 0);
}

/* Every fault by its name, as the library gives it. */
static void faults(void) {
    static const struct { enum sgl_fault fault; uint32_t number; } named[] = {
        {SGL_OK, 0}, {SGL_LIST_LENGTH, 1}, {SGL_FIRST_WORD, 2}, {SGL_DATE_ORDER, 3}, {SGL_NO_CHANGE, 4}, {SGL_TOO_LONG, 5},
        {SGL_CHANGES_AFTER_M, 6}, {SGL_SHORT_OUTPUT, 7}, {SGL_LENGTH_ABOVE_M, 8}, {SGL_DATE, 9}, {SGL_FORMULA_LENGTH, 10},
        {SGL_GRAMMAR, 11}, {SGL_TOO_COMPLEX, 12}, {SGL_UNKNOWN_NAME, 13}, {SGL_MARK, 14}, {SGL_SHEET_SIZE, 15}, {SGL_NAME, 16},
        {SGL_SHEET_LIST, 17}, {SGL_SHORT_WORK, 18}, {SGL_HORIZON_ABOVE_M, 19}, {SGL_MOMENT_ORDER, 20}};
    static const uint32_t turned[] = {11, 10};
    uint8_t cut[sizeof printed];
    for (size_t i = 0; i < sizeof named / sizeof *named; i++) {
        IS((uint32_t)named[i].fault, named[i].number);
        IS(SGL_FAULT(REFUSED(named[i].number)), named[i].number);
        IS(SGL_COUNT(REFUSED(named[i].number)), 0);
        IS(SGL_YES(REFUSED(named[i].number)), 0);
    }
    memcpy(cut, printed, sizeof printed);
    cut[17] = 2;
    IS(SGL_FAULT(sgl_list_fault(N(f))), SGL_OK);
    IS(SGL_FAULT(sgl_list_fault(f, 0)), SGL_LIST_LENGTH);
    IS(SGL_FAULT(sgl_list_fault(N(bad2))), SGL_FIRST_WORD);
    IS(SGL_FAULT(sgl_list_fault(N(bad3))), SGL_DATE_ORDER);
    IS(SGL_FAULT(sgl_list_fault(N(bad4))), SGL_NO_CHANGE);
    IS(SGL_FAULT(sgl_ton(1, N(up), OUT)), SGL_CHANGES_AFTER_M);
    IS(SGL_FAULT(sgl_not(N(f), out, 0)), SGL_SHORT_OUTPUT);
    IS(SGL_FAULT(sgl_ton(SGL_M + 1, N(f), OUT)), SGL_LENGTH_ABOVE_M);
    IS(SGL_FAULT(sgl_value_at(N(f), 0)), SGL_DATE);
    IS(SGL_FAULT(sgl_evaluate(N(printed), TEXT(""), N(work), OUT)), SGL_FORMULA_LENGTH);
    IS(SGL_FAULT(sgl_evaluate(N(printed), TEXT("a+"), N(work), OUT)), SGL_GRAMMAR);
    IS(SGL_FAULT(sgl_evaluate(N(printed), TEXT("!!!!!!!!!!!!!!!!!a"), N(work), OUT)), SGL_TOO_COMPLEX);
    IS(SGL_FAULT(sgl_evaluate(N(printed), TEXT("b"), N(work), OUT)), SGL_UNKNOWN_NAME);
    IS(SGL_FAULT(sgl_sheet_fault(printed, 2)), SGL_MARK);
    IS(SGL_FAULT(sgl_sheet_fault(printed, 20)), SGL_SHEET_SIZE);
    IS(SGL_FAULT(sgl_append(N(printed), TEXT("a"), N(f), bytes, sizeof bytes)), SGL_NAME);
    IS(SGL_FAULT(sgl_sheet_fault(N(cut))), SGL_SHEET_LIST);
    IS(SGL_FAULT(sgl_evaluate(N(printed), TEXT("a"), work, 0, OUT)), SGL_SHORT_WORK);
    IS(SGL_UPTIME_FAULT(sgl_uptime(N(printed), TEXT("a"), SGL_M + 1, OUT)), SGL_HORIZON_ABOVE_M);
    IS(SGL_COLUMN_FAULT(sgl_values(N(f), N(turned), OUT)), SGL_MOMENT_ORDER);
    IS(SGL_FAULT(65535u), 0);
    IS(SGL_YES(sgl_equal(N(f), N(f))), 1);
    IS(SGL_YES(sgl_equal(N(f), N(e))), 0);
    IS(SGL_YES(sgl_equal(N(f), N(bad2))), 0);
}

static void stop(int line, uint64_t got, uint32_t fault, uint32_t at) {
    same(line, got, (uint64_t)fault << 48 | at);
    same(line, SGL_STOP_FAULT(got), fault);
    same(line, SGL_STOP_PLACE(got), at);
}

#define STOP(fault, at, ...) stop(__LINE__, sgl_formula_fault(__VA_ARGS__), (fault), (at))

static void stops(void) {
    uint8_t deep[SGL_FORMULA_BYTES + 1];
    memset(deep, '(', sizeof deep);
    STOP(SGL_OK, 8, TEXT("TON(5,a)"));
    STOP(SGL_GRAMMAR, 2, TEXT("a+"));
    STOP(SGL_GRAMMAR, 2, TEXT("TOM(5,a)"));
    STOP(SGL_GRAMMAR, 8, TEXT("abcdefghij"));
    STOP(SGL_GRAMMAR, 1, TEXT("a b"));
    STOP(SGL_GRAMMAR, 5, TEXT("TON(05,a)"));
    STOP(SGL_LENGTH_ABOVE_M, 17, TEXT("TON(1073741824,a)"));
    STOP(SGL_TOO_COMPLEX, 18, TEXT("!!!!!!!!!!!!!!!!!a"));
    STOP(SGL_FORMULA_LENGTH, 0, TEXT(""));
    STOP(SGL_GRAMMAR, SGL_FORMULA_BYTES, deep, SGL_FORMULA_BYTES);
    STOP(SGL_FORMULA_LENGTH, 0, N(deep));
}

static void part(int line, uint64_t got, enum sgl_part kind, uint32_t start, uint32_t count, uint32_t length) {
    same(line, SGL_PART_KIND(got), kind);
    same(line, SGL_PART_NAME_START(got), start);
    same(line, SGL_PART_NAME_COUNT(got), count);
    same(line, SGL_PART_LENGTH(got), length);
}

#define PART(i, kind, start, count, length) part(__LINE__, parts[i], (kind), (start), (count), (length))

static void formula_parts(void) {
    uint64_t parts[SGL_FORMULA_PARTS];
    IS(sgl_formula_parts(TEXT("SR(0,1)+!needle.^~a2"), parts), 10);
    PART(0, SGL_PART_ZERO, 0, 0, 0);
    PART(1, SGL_PART_ONE, 0, 0, 0);
    PART(2, SGL_PART_SR, 0, 0, 0);
    PART(3, SGL_PART_NAME, 9, 6, 0);
    PART(4, SGL_PART_NOT, 0, 0, 0);
    PART(5, SGL_PART_NAME, 18, 2, 0);
    PART(6, SGL_PART_FALLING, 0, 0, 0);
    PART(7, SGL_PART_RISING, 0, 0, 0);
    PART(8, SGL_PART_AND, 0, 0, 0);
    PART(9, SGL_PART_OR, 0, 0, 0);
    IS(sgl_formula_parts(TEXT("TON(1073741823,RS(abcdefgh,TOF(0,TP(12,a))))"), parts), 6);
    PART(0, SGL_PART_NAME, 18, 8, 0);
    PART(1, SGL_PART_NAME, 39, 1, 0);
    PART(2, SGL_PART_TP, 0, 0, 12);
    PART(3, SGL_PART_TOF, 0, 0, 0);
    PART(4, SGL_PART_RS, 0, 0, 0);
    PART(5, SGL_PART_TON, 0, 0, SGL_M);
    parts[3] = 7;
    IS(sgl_formula_parts(TEXT("a+a"), parts), 3);
    IS(parts[3], 7);
    IS(sgl_formula_parts(TEXT("a+"), parts), REFUSED(11));
    IS(sgl_formula_parts(TEXT(""), parts), REFUSED(10));
    IS(sgl_formula_parts(TEXT("TON(1073741824,a)"), parts), REFUSED(8));
    IS(sgl_formula_parts(TEXT("!!!!!!!!!!!!!!!!!a"), parts), REFUSED(12));
}

static void formulas(void) {
    WORDS(sgl_evaluate(N(printed), TEXT("TON(2,a)"), N(work), OUT), 0, 31, 36);
    WORDS(sgl_evaluate(N(printed), TEXT("TP(2,a)"), N(work), OUT), 0, 23, 28);
    IS(sgl_evaluate(N(printed), TEXT("TP(2a)"), N(work), OUT), REFUSED(11));
    IS(sgl_evaluate(N(printed), TEXT("a+"), N(work), OUT), REFUSED(11));
    IS(sgl_evaluate(N(printed), TEXT("b"), N(work), OUT), REFUSED(13));
    IS(sgl_evaluate(N(printed), TEXT("a"), work, SGL_WORK_WORDS - 1, OUT), REFUSED(18));
    IS(sgl_evaluate(N(printed), TEXT("a"), N(work), out, 2), REFUSED(7));
    IS(sgl_claim(N(printed), TEXT("a"), TEXT("TON(2,a)"), N(work)), 2 * 5);
    IS(sgl_claim(N(printed), TEXT("TON(2,a)"), TEXT("a"), N(work)), 0);
    IS(sgl_claim(N(printed), TEXT("a"), TEXT("TP(3,a)"), N(work)), 2 * 8);
    IS(sgl_claim(N(printed), TEXT("1"), TEXT("a"), N(work)), 1);
    IS(sgl_claim(N(printed), TEXT(""), TEXT("a"), N(work)), 10ull << 40);
}

/* A span: the number and its parts. Where it fails, the verdict of before is its first moment. */
static void span(int line, uint64_t got, uint64_t verdict, uint32_t fault, uint32_t first, uint32_t end) {
    same(line, got, (uint64_t)(fault ? fault : end) << 32 | first);
    same(line, verdict, fault ? (uint64_t)fault << 40 : first);
    same(line, SGL_VERDICT_FAULT(verdict), fault);
    same(line, SGL_VERDICT_HOLDS(verdict), !fault && !first);
    same(line, SGL_VERDICT_FAILS(verdict), first != 0);
    same(line, SGL_VERDICT_MOMENT(verdict), first);
    same(line, SGL_VERDICT_AT(verdict), first && first % 2 == 0);
    same(line, SGL_VERDICT_AFTER(verdict), first % 2);
    same(line, SGL_VERDICT_K(verdict), first / 2);
    same(line, SGL_SPAN_HOLDS(got), !fault && !first);
    same(line, SGL_SPAN_FAILS(got), first != 0);
    same(line, SGL_MOMENT_AT(SGL_SPAN_LAST(got)), end && end % 2 == 0);
    same(line, SGL_MOMENT_AFTER(SGL_SPAN_LAST(got)), end % 2);
    same(line, SGL_MOMENT_K(SGL_SPAN_LAST(got)), end / 2);
    same(line, SGL_SPAN_FAULT(got), fault);
    same(line, SGL_SPAN_FIRST(got), first);
    same(line, SGL_SPAN_LAST(got), end);
    same(line, SGL_SPAN_FOR_GOOD(got), first && !end);
}

#define AT(k) (2 * (k))
#define GAP(k) (2 * (k) + 1)
#define SPAN_OF(a, b, fault, first, end) span(__LINE__, sgl_implies_span(N(a), N(b)), sgl_implies(N(a), N(b)), (fault), (first), (end))
#define SPAN(a, b, first, end) SPAN_OF(a, b, 0, (first), (end))
#define HOLDS(a, b) SPAN_OF(a, b, 0, 0, 0)
#define FOR_GOOD(a, b, first) SPAN_OF(a, b, 0, (first), 0)
#define NO_SPAN(a, b, fault) SPAN_OF(a, b, (fault), 0, 0)

static void spans(void) {
    static const uint32_t ton2[] = {0, 31, 36}, gap5[] = {0, 21, 24}, to7[] = {0, 23, 30}, from0[] = {1, 4}, but7[] = {1, 29},
        again[] = {0, 22, 43}, after[] = {0, 23}, before_m[] = {0, 4294967289u, 4294967292u}, gap_m[] = {0, 4294967293u},
        to_m[] = {0, 23, 4294967294u};
    HOLDS(e, f);
    HOLDS(f, one);
    SPAN(f, ton2, AT(5), GAP(6));
    SPAN(f, ton2, 10, 13);
    SPAN(e, none, AT(5), AT(5));
    SPAN(gap5, none, GAP(5), GAP(5));
    SPAN(to7, none, AT(5), AT(7));
    SPAN(from0, none, GAP(0), GAP(0));
    SPAN(one, f, GAP(0), GAP(4));
    SPAN(but7, none, GAP(0), GAP(6));
    SPAN(again, none, AT(5), AT(5));
    SPAN(to7, l, AT(5), AT(5));
    FOR_GOOD(one, none, GAP(0));
    FOR_GOOD(after, none, AT(5));
    FOR_GOOD(l, e, GAP(5));
    FOR_GOOD(up, none, AT(SGL_M));
    FOR_GOOD(gap_m, none, GAP(SGL_M));
    SPAN(last, none, AT(SGL_M), AT(SGL_M));
    SPAN(before_m, none, GAP(SGL_M - 1), GAP(SGL_M - 1));
    SPAN(to_m, none, AT(5), AT(SGL_M));
    SPAN(one, up, GAP(0), GAP(SGL_M - 1));
    NO_SPAN(bad2, f, 2);
    NO_SPAN(f, bad3, 3);
    NO_SPAN(bad4, bad2, 4);
    IS(sgl_implies_span(f, 0, N(f)), 1ull << 32);
}

#define CLAIM_OF(f, g, fault, first, end) \
    span(__LINE__, sgl_claim_span(N(printed), TEXT(f), TEXT(g), N(work)), sgl_claim(N(printed), TEXT(f), TEXT(g), N(work)), (fault), \
         (first), (end))

static void claims(void) {
    CLAIM_OF("a", "TON(2,a)", 0, 10, 13);
    CLAIM_OF("TON(2,a)", "a", 0, 0, 0);
    CLAIM_OF("a", "TP(3,a)", 0, AT(8), GAP(8));
    CLAIM_OF("^a", "0", 0, AT(5), AT(5));
    CLAIM_OF("1", "a", 0, GAP(0), GAP(4));
    CLAIM_OF("1", "0", 0, GAP(0), 0);
    CLAIM_OF("SR(~a,0)", "a", 0, AT(9), 0);
    CLAIM_OF("", "a", 10, 0, 0);
    CLAIM_OF("a", "a+", 11, 0, 0);
    CLAIM_OF("a", "b", 13, 0, 0);
    CLAIM_OF("TOF(1073741823,a)", "a", 6, 0, 0);
    IS(sgl_claim_span(N(printed), TEXT("a"), TEXT("a"), work, SGL_WORK_WORDS - 1), 18ull << 32);
    IS(sgl_claim_span(printed, 4, TEXT("a"), TEXT("a"), N(work)), 14ull << 32);
}

/* An up-time: the answer and its parts, and the whole output. */
static void uptime(int line, uint64_t got, uint32_t fault, uint32_t total, const uint32_t *want, uint32_t count) {
    same(line, got, fault ? (uint64_t)fault << 48 : (uint64_t)total << 16 | count);
    same(line, SGL_UPTIME_FAULT(got), fault);
    same(line, SGL_UPTIME_TOTAL(got), total);
    same(line, SGL_UPTIME_COUNT(got), count);
    whole(line, want, count);
}

#define UP(got, total, ...) \
    do { const uint32_t want_[] = {__VA_ARGS__}; uptime(__LINE__, (got), 0, (total), want_, sizeof want_ / 4); } while (0)
#define NOT_UP(got) uptime(__LINE__, (got), 0, 0, NULL, 0)
#define NO_UPTIME(got, fault) uptime(__LINE__, (got), (fault), 0, NULL, 0)

static void uptimes(void) {
    static const uint32_t turned[] = {1, 20, 39}, down5[] = {1, 21}, from_m1[] = {0, 4294967291u};
    uint8_t other[SGL_SHEET_BYTES];
    uint32_t n = sgl_append(N(printed), TEXT("t"), N(turned), other, sizeof other);
    n = sgl_append(other, n, TEXT("e"), N(e), bytes, sizeof bytes);
    n = sgl_append(bytes, n, TEXT("d"), N(down5), other, sizeof other);
    n = sgl_append(other, n, TEXT("o"), N(one), bytes, sizeof bytes);
    n = sgl_append(bytes, n, TEXT("m"), N(from_m1), other, sizeof other);
    sevens();
    UP(sgl_uptime(other, n, TEXT("a"), 8, OUT), 3, 5, 3);
    NOT_UP(sgl_uptime(other, n, TEXT("a"), 0, OUT));
    NOT_UP(sgl_uptime(other, n, TEXT("a"), 5, OUT));
    UP(sgl_uptime(other, n, TEXT("a"), 6, OUT), 1, 5, 1);
    UP(sgl_uptime(other, n, TEXT("a"), SGL_M, OUT), 4, 5, 4);
    UP(sgl_uptime(other, n, TEXT("t"), 12, OUT), 8, 0, 5, 9, 3);
    UP(sgl_uptime(other, n, TEXT("t"), 9, OUT), 5, 0, 5);
    NOT_UP(sgl_uptime(other, n, TEXT("e"), SGL_M, OUT));
    UP(sgl_uptime(other, n, TEXT("d"), 12, OUT), 12, 0, 12);
    UP(sgl_uptime(other, n, TEXT("o"), SGL_M, OUT), SGL_M, 0, SGL_M);
    UP(sgl_uptime(other, n, TEXT("m"), SGL_M, OUT), 1, SGL_M - 1, 1);
    NOT_UP(sgl_uptime(other, n, TEXT("a"), 0, out, 0));
    UP(sgl_uptime(other, n, TEXT("a"), 8, out, 2), 3, 5, 3);
    NO_UPTIME(sgl_uptime(other, n, TEXT("a"), 8, out, 1), 7);
    NO_UPTIME(sgl_uptime(other, n, TEXT("t"), 12, out, 3), 7);
    NO_UPTIME(sgl_uptime(other, n, TEXT("a"), SGL_M + 1, out, 0), 19);
    NO_UPTIME(sgl_uptime(other, n, TEXT("b"), SGL_M + 1, out, 0), 13);
    NO_UPTIME(sgl_uptime(other, n, TEXT("A"), SGL_M + 1, out, 0), 16);
    NO_UPTIME(sgl_uptime(other, n, TEXT(""), 8, OUT), 16);
    NO_UPTIME(sgl_uptime(other, n - 1, TEXT("A"), SGL_M + 1, out, 0), 15);
    NO_UPTIME(sgl_uptime(other, 4, TEXT("a"), 8, OUT), 14);
}

/* A column: the answer and its parts, and the whole output. */
static void column(int line, uint64_t got, uint32_t fault, uint32_t passed, const uint32_t *want, uint32_t count) {
    same(line, got, fault ? (uint64_t)fault << 48 : (uint64_t)passed << 16 | count);
    same(line, SGL_COLUMN_FAULT(got), fault);
    same(line, SGL_COLUMN_PASSED(got), passed);
    same(line, SGL_COLUMN_COUNT(got), count);
    whole(line, want, count);
}

#define COLUMN(got, passed, ...) \
    do { const uint32_t want_[] = {__VA_ARGS__}; column(__LINE__, (got), 0, (passed), want_, sizeof want_ / 4); } while (0)
#define EMPTY_COLUMN(got) column(__LINE__, (got), 0, 0, NULL, 0)
#define NO_COLUMN(got, fault) column(__LINE__, (got), (fault), 0, NULL, 0)

/* The numbers of moments: made of k, and taken apart again. */
static void moment(int line, uint32_t k) {
    same(line, SGL_INSTANT(k), 2 * k);
    same(line, SGL_GAP(k), 2 * k + 1);
    same(line, SGL_MOMENT_AT(SGL_INSTANT(k)), k != 0);
    same(line, SGL_MOMENT_AFTER(SGL_INSTANT(k)), 0);
    same(line, SGL_MOMENT_AT(SGL_GAP(k)), 0);
    same(line, SGL_MOMENT_AFTER(SGL_GAP(k)), 1);
    same(line, SGL_MOMENT_K(SGL_INSTANT(k)), k);
    same(line, SGL_MOMENT_K(SGL_GAP(k)), k);
}

static void moments(void) {
    static const uint32_t past[] = {2147483648u, 4294967295u};
    uint32_t once = 5;
    moment(__LINE__, 0);
    moment(__LINE__, 1);
    moment(__LINE__, SGL_M);
    moment(__LINE__, SGL_M + 1);
    moment(__LINE__, 2147483647u);
    for (size_t i = 0; i < sizeof past / 4; i++) {
        IS(SGL_INSTANT(past[i]), 4294967294u);
        IS(SGL_GAP(past[i]), 4294967295u);
    }
    IS(SGL_INSTANT(-1), 4294967294u);
    IS(SGL_GAP(1ull << 32), 4294967295u);
    IS(SGL_INSTANT(once++), 10);
    IS(SGL_GAP(once++), 13);
    IS(once, 7);
}

static void columns(void) {
    static const uint32_t spiked[] = {0, 22, 37}; /* down, up only at 5, up after 9 */
    const uint32_t all[] = {SGL_GAP(0), SGL_GAP(4), SGL_INSTANT(5), SGL_GAP(5), SGL_INSTANT(9), SGL_GAP(9), SGL_INSTANT(10),
                            SGL_GAP(SGL_M)};
    const uint32_t turned[] = {GAP(5), AT(5)}, equal[] = {AT(5), AT(5)}, third[] = {GAP(0), GAP(4), GAP(4)}, zero[] = {0, GAP(0)},
        zero_later[] = {GAP(0), 0}, past_m[] = {GAP(0), AT(SGL_M + 1)}, late_falls[] = {AT(SGL_M + 1), GAP(0)},
        at_m[] = {GAP(SGL_M - 1), AT(SGL_M), GAP(SGL_M)};
    uint32_t full[SGL_LIST_WORDS + 1], many[SGL_COLUMN_MOMENTS + 1], values[SGL_COLUMN_MOMENTS + 1];
    uint64_t got;
    sevens();
    COLUMN(sgl_values(N(spiked), N(all), OUT), 3, 0, 0, 1, 0, 0, 1, 1, 1);
    /* the words passed are those up to the last moment */
    COLUMN(sgl_values(N(spiked), all, 1, OUT), 1, 0);
    COLUMN(sgl_values(N(spiked), all, 2, OUT), 1, 0, 0);
    COLUMN(sgl_values(N(spiked), all, 3, OUT), 2, 0, 0, 1);
    COLUMN(sgl_values(N(spiked), all, 4, OUT), 2, 0, 0, 1, 0);
    COLUMN(sgl_values(N(spiked), all, 5, OUT), 3, 0, 0, 1, 0, 0);
    COLUMN(sgl_values(N(spiked), all + 2, 1, OUT), 2, 1);
    COLUMN(sgl_values(N(up), N(at_m), OUT), 2, 0, 1, 1);
    COLUMN(sgl_values(N(up), at_m, 1, OUT), 1, 0);
    COLUMN(sgl_values(N(one), N(at_m), OUT), 1, 1, 1, 1);
    /* inputs may be one and the same */
    COLUMN(sgl_values(N(one), N(one), OUT), 1, 1);
    /* outputs just long enough, and a word short; no moments need no room */
    COLUMN(sgl_values(N(spiked), all, 3, out, 3), 2, 0, 0, 1);
    NO_COLUMN(sgl_values(N(spiked), all, 3, out, 2), 7);
    COLUMN(sgl_values(N(spiked), all, 1, out, 1), 1, 0);
    NO_COLUMN(sgl_values(N(spiked), all, 1, out, 0), 7);
    EMPTY_COLUMN(sgl_values(N(spiked), all, 0, OUT));
    EMPTY_COLUMN(sgl_values(N(spiked), all, 0, out, 0));
    /* each fault, also before those that come later */
    for (uint32_t i = 0; i <= SGL_LIST_WORDS; i++)
        full[i] = 4 * i;
    NO_COLUMN(sgl_values(f, 0, N(turned), out, 0), 1);
    NO_COLUMN(sgl_values(f, 0, all, 0, OUT), 1);
    NO_COLUMN(sgl_values(N(full), N(turned), out, 0), 1);
    NO_COLUMN(sgl_values(N(bad2), N(turned), out, 0), 2);
    NO_COLUMN(sgl_values(N(bad3), N(turned), out, 0), 3);
    NO_COLUMN(sgl_values(N(bad4), N(turned), out, 0), 4);
    NO_COLUMN(sgl_values(N(f), N(turned), out, 0), 20);
    NO_COLUMN(sgl_values(N(f), N(equal), OUT), 20);
    NO_COLUMN(sgl_values(N(f), N(third), OUT), 20);
    NO_COLUMN(sgl_values(N(f), N(zero_later), OUT), 20);
    NO_COLUMN(sgl_values(N(f), N(late_falls), OUT), 20);
    NO_COLUMN(sgl_values(N(f), N(zero), out, 0), 9);
    NO_COLUMN(sgl_values(N(f), N(past_m), out, 1), 9);
    NO_COLUMN(sgl_values(N(f), late_falls, 1, out, 0), 9);
    COLUMN(sgl_values(N(f), past_m, 1, out, 1), 1, 0);
    /* 1,000 moments, and one more */
    for (uint32_t i = 0; i <= SGL_COLUMN_MOMENTS; i++) {
        many[i] = SGL_GAP(i);
        values[i] = 7;
    }
    got = sgl_values(N(f), many, SGL_COLUMN_MOMENTS, N(values));
    IS(got, 3ull << 16 | 1000);
    IS(SGL_COLUMN_COUNT(got), SGL_COLUMN_MOMENTS);
    for (uint32_t i = 0; i < SGL_COLUMN_MOMENTS; i++)
        IS(values[i], i >= 5 && i < 9);
    IS(values[SGL_COLUMN_MOMENTS], 7);
    IS(sgl_values(N(f), N(many), N(values)), 20ull << 48);
    IS(sgl_values(N(f), many, SGL_COLUMN_MOMENTS, values, SGL_COLUMN_MOMENTS - 1), 7ull << 48);
}

int main(void) {
    lists();
    tidyings();
    operations();
    sheets();
    looked_up();
    faults();
    formulas();
    stops();
    formula_parts();
    spans();
    claims();
    uptimes();
    moments();
    columns();
    return failed;
}
