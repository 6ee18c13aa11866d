/* Rascrunel: timing signals as lists of words, sheets of named signals, formulas and claims, up-times, columns of values.
 *
 * The functions below are proved: each comes to an end on every input, judges its input, and gives the number that
 * crates/capi/specs defines. This header is not proved; it only declares them and takes their numbers apart. It is C99 and C++.
 *
 * Time. A tick is one millisecond. Dates, instants, gaps, lengths and horizons are counts of ticks. A moment is an instant k (from
 * 1 on) or the gap k between the instants k and k + 1 (from 0 on). As a number it is 2 * k for the instant k and 2 * k + 1 for the
 * gap k: the numbers rise as the moments do, and 0 is no moment.
 *
 * Lists. A list is 1 to 256 words. The first is 0 or 1, the value from the start on. Each later word is
 * 4 * date + 2 * (value at the date) + (value after it). Dates rise strictly from 1 and are at most 1073741823 (M). A word
 * that changes nothing is refused, so a signal has one list.
 *
 * Sheets. A sheet is bytes, its numbers low byte first:
 *   byte 0   3 bytes   the letters SGL
 *   byte 3   2 bytes   the version, 1
 *   byte 5   2 bytes   how many signals there are, 0 to 32
 *   byte 7             the signals, one after the other, and nothing after the last; each has
 *     +0     8 bytes   its name: a lowercase letter, then lowercase letters or digits, then zero bytes up to the eighth
 *     +8     2 bytes   how many words its list has, 1 to 256
 *     +10    4 bytes each   the words
 * So the words of the first signal begin at byte 17, and those of every signal at an odd byte, not aligned for uint32_t: take
 * them with sgl_place_word, or with memcpy where numbers stand low byte first, and never through a uint32_t *.
 *
 * Slices. Lists, moments, sheets, names, formulas, work areas and outputs are two arguments each, a pointer and a count of elements
 * (but for the 32 words of sgl_formula_parts, which are a pointer alone). The pointer is never null, not even when the count is 0,
 * and is aligned for its type. Inputs are only read, and may overlap each other or be one and the same. Outputs and work areas
 * overlap nothing else: neither an input nor each other. So a sheet is appended to from one buffer into another, a list is not
 * tidied in place, and values are not written over their moments.
 *
 * Threads. Nothing is kept between calls: the library has no variable, takes no lock, allocates nothing, sets no errno, and calls
 * nothing but memcpy and memset. So any number of threads may call at a time, also the same function on the same inputs, as long
 * as each has outputs and work areas of its own and nobody writes the inputs meanwhile. A signal handler with stack enough may call too.
 *
 * Stack. The proofs do not speak of it. A call needs at most SGL_STACK_BYTES bytes of stack, whatever its input: the readers of
 * a formula call each other as deep as its text goes, 64 bytes a bracket, and it has at most 1,024 bytes. Most calls need 4 KB.
 *
 * Results. They are numbers, which the macros below take apart. On a refusal each macro but that of the fault gives 0; a stop has
 * its place then, too.
 *   uint32_t  65536 * fault + count of the words (for sheets, bytes) written. Where the call tells a value: + 1 for yes or up,
 *             + 0 for no or down. Where it only judges: 65536 * fault. Fault 0 is none; a refused call writes nothing to its
 *             output and its count is 0. Elements of the output past the count keep what they held.
 *   verdict   (uint64_t) 0 holds, 2 * k fails at k, 2 * k + 1 fails after k (between k and k + 1), 2^40 * n refused with n.
 *   span      (uint64_t) 2^32 * last + first: the earliest moment that fails, and the last of the unbroken run of failing moments
 *             that begins with it, 0 when that never ends (fails for good), both as numbers. Holds is exactly 0. Refused with n
 *             is 2^32 * n: not packed as a verdict is, and a span is refused exactly when its low 32 bits are 0 and its high 32
 *             bits are not. No moment that fails is 0.
 *   place     (uint64_t) 2^24 * first byte + byte count of a signal's words on the sheet; refused, 2^48 * fault, and the first
 *             byte and the count are 0.
 *   up-time   (uint64_t) 2^16 * total in ticks + count of the words written; refused, 2^48 * fault, and total and count are 0.
 *             Refused, nothing is written; words past the count keep what they held.
 *   column    (uint64_t) 2^16 * number of the list's words passed + count of the words written; refused, 2^48 * fault, and both
 *             are 0. Refused, nothing is written; words past the count keep what they held.
 *   stop      (uint64_t) 2^48 * fault + how many bytes of a text some formula begins with.
 */
#ifndef RASCRUNEL_H
#define RASCRUNEL_H

#include <stddef.h>
#include <stdint.h>

#ifdef __cplusplus
extern "C" {
#endif

/* Why a call is refused. A later library may have more of them. */
enum sgl_fault {
    SGL_OK = 0,               /* not refused */
    SGL_LIST_LENGTH = 1,      /* list empty or over 256 words */
    SGL_FIRST_WORD = 2,       /* first word above 1 */
    SGL_DATE_ORDER = 3,       /* date not above the last */
    SGL_NO_CHANGE = 4,        /* word changes nothing */
    SGL_TOO_LONG = 5,         /* exact answer over 256 words */
    SGL_CHANGES_AFTER_M = 6,  /* exact answer changes after M */
    SGL_SHORT_OUTPUT = 7,     /* output shorter than the answer */
    SGL_LENGTH_ABOVE_M = 8,   /* length above M */
    SGL_DATE = 9,             /* instant 0, or date above M */
    SGL_FORMULA_LENGTH = 10,  /* formula empty or over 1,024 bytes */
    SGL_GRAMMAR = 11,         /* formula outside the grammar */
    SGL_TOO_COMPLEX = 12,     /* over 32 parts, or depth over 16 */
    SGL_UNKNOWN_NAME = 13,    /* name not in the sheet */
    SGL_MARK = 14,            /* mark or version of a sheet wrong or cut */
    SGL_SHEET_SIZE = 15,      /* count missing or over 32, sheet cut or too long, or append to 32 */
    SGL_NAME = 16,            /* name malformed or repeated */
    SGL_SHEET_LIST = 17,      /* a sheet's list breaks 1 to 4 */
    SGL_SHORT_WORK = 18,      /* work area under 8,192 words */
    SGL_HORIZON_ABOVE_M = 19, /* horizon above M (of the program also: not written as a length is) */
    SGL_MOMENT_ORDER = 20     /* moment not after the one before it, or over 1,000 moments */
};

/* The largest date and the largest length; the most words of a list; the work words of sgl_evaluate, sgl_claim and
 * sgl_claim_span; the bytes of the sheet without signals and of the longest; the most bytes and the most parts of a formula; the
 * most moments of a column. */
#define SGL_M 1073741823u
#define SGL_LIST_WORDS 256u
#define SGL_WORK_WORDS 8192u
#define SGL_EMPTY_BYTES 7u
#define SGL_SHEET_BYTES 33095u
#define SGL_FORMULA_BYTES 1024u
#define SGL_FORMULA_PARTS 32u
#define SGL_COLUMN_MOMENTS 1000u

/* The most stack that a call needs, 128 KB: bindings/c/stack.c makes the deepest calls in threads of it. */
#define SGL_STACK_BYTES 131072u

/* A uint32_t result: its fault, its count, and whether the call says yes or up. `if (sgl_equal(..))` would take a refusal for a yes.
 * They are for uint32_t results alone: of a column, say, SGL_FAULT would give the words passed. Here and below each macro takes its
 * argument once. */
#define SGL_FAULT(result) ((uint32_t)(result) / 65536u)
#define SGL_COUNT(result) ((uint32_t)(result) % 65536u)
#define SGL_YES(result) ((uint32_t)(result) == 1u)

/* A moment's number, that of a verdict or of a span, and 0 where there is none: whether it is an instant or a gap, and its k. */
#define SGL_MOMENT_AT(moment) sgl_moment_at((uint32_t)(moment))
#define SGL_MOMENT_AFTER(moment) ((uint32_t)(moment) % 2u == 1u)
#define SGL_MOMENT_K(moment) ((uint32_t)(moment) / 2u)

/* The number of the instant k and of the gap k, for sgl_values; k is an integer. One that is negative or above 2147483647, which has
 * none in 32 bits, counts as 2147483647: the call is refused, with 20 where the numbers then do not rise, else with 9. They are
 * calls: a table of constants has 2 * k and 2 * k + 1. */
#define SGL_INSTANT(k) sgl_moment_number((uint64_t)(k))
#define SGL_GAP(k) (sgl_moment_number((uint64_t)(k)) + 1u)

/* A verdict, which is no span: whether it holds, whether it fails at an instant or after one, and that instant. A refusal neither
 * holds nor fails. */
#define SGL_VERDICT_FAULT(verdict) ((uint32_t)((uint64_t)(verdict) >> 40))
#define SGL_VERDICT_HOLDS(verdict) ((uint64_t)(verdict) == 0u)
#define SGL_VERDICT_FAILS(verdict) (SGL_VERDICT_MOMENT(verdict) != 0u)
#define SGL_VERDICT_MOMENT(verdict) ((uint32_t)((uint64_t)(verdict) & 0xffffffffu))
#define SGL_VERDICT_AT(verdict) SGL_MOMENT_AT(SGL_VERDICT_MOMENT(verdict))
#define SGL_VERDICT_AFTER(verdict) SGL_MOMENT_AFTER(SGL_VERDICT_MOMENT(verdict))
#define SGL_VERDICT_K(verdict) SGL_MOMENT_K(SGL_VERDICT_MOMENT(verdict))

/* A span: whether it holds or fails, the first moment that fails and the last of its run, 0 where there is none: it holds, fails
 * for good, or is refused; and whether it fails for good. */
#define SGL_SPAN_FAULT(span) sgl_span_fault(span)
#define SGL_SPAN_HOLDS(span) ((uint64_t)(span) == 0u)
#define SGL_SPAN_FAILS(span) (SGL_SPAN_FIRST(span) != 0u)
#define SGL_SPAN_FIRST(span) ((uint32_t)((uint64_t)(span) & 0xffffffffu))
#define SGL_SPAN_LAST(span) sgl_span_last(span)
#define SGL_SPAN_FOR_GOOD(span) ((uint64_t)(span) - 1 < 0xffffffffu)

/* A place: the first byte of a signal's words on the sheet, how many bytes and how many words they are. sgl_place_word gives the
 * word i, counted from 0, and 0 where there is none. */
#define SGL_PLACE_FAULT(place) ((uint32_t)((uint64_t)(place) >> 48))
#define SGL_PLACE_START(place) ((uint32_t)((uint64_t)(place) >> 24 & 0xffffffu))
#define SGL_PLACE_COUNT(place) ((uint32_t)((uint64_t)(place) & 0xffffffu))
#define SGL_PLACE_WORDS(place) (SGL_PLACE_COUNT(place) / 4u)

/* An up-time: the ticks of all stretches, and the count of the words written, two a stretch. */
#define SGL_UPTIME_FAULT(uptime) ((uint32_t)((uint64_t)(uptime) >> 48))
#define SGL_UPTIME_TOTAL(uptime) ((uint32_t)((uint64_t)(uptime) >> 16 & 0xffffffffu))
#define SGL_UPTIME_COUNT(uptime) ((uint32_t)((uint64_t)(uptime) & 0xffffu))

/* A column: how many of the list's words the last moment passes, and the count of the words written, one a moment. */
#define SGL_COLUMN_FAULT(column) ((uint32_t)((uint64_t)(column) >> 48))
#define SGL_COLUMN_PASSED(column) ((uint32_t)((uint64_t)(column) >> 16 & 0xffffffffu))
#define SGL_COLUMN_COUNT(column) ((uint32_t)((uint64_t)(column) & 0xffffu))

/* A stop: the fault of a formula by itself, and the byte at which reading stopped, counted from 0, which is the length where the
 * text is a formula or is cut short. The place is told of refusals too. */
#define SGL_STOP_FAULT(stop) ((uint32_t)((uint64_t)(stop) >> 48))
#define SGL_STOP_PLACE(stop) ((uint32_t)((uint64_t)(stop) & 0xffffffffu))

/* A part of a formula: its kind; of a name a place in the text at which its bytes stand, and how many; of a timer its length in ticks.
 * What a part of its kind does not have is 0. */
enum sgl_part {
    SGL_PART_ZERO = 0,    /* 0 */
    SGL_PART_ONE = 1,     /* 1 */
    SGL_PART_NAME = 2,    /* a name */
    SGL_PART_NOT = 3,     /* !f */
    SGL_PART_RISING = 4,  /* ^f */
    SGL_PART_FALLING = 5, /* ~f */
    SGL_PART_TON = 6,     /* TON(d,f) */
    SGL_PART_TOF = 7,     /* TOF(d,f) */
    SGL_PART_TP = 8,      /* TP(d,f) */
    SGL_PART_AND = 9,     /* f.g */
    SGL_PART_OR = 10,     /* f+g */
    SGL_PART_SR = 11,     /* SR(s,r) */
    SGL_PART_RS = 12      /* RS(s,r) */
};
#define SGL_PART_KIND(part) ((uint32_t)((uint64_t)(part) & 15u))
#define SGL_PART_NAME_START(part) sgl_part_name_start(part)
#define SGL_PART_NAME_COUNT(part) sgl_part_name_count(part)
#define SGL_PART_LENGTH(part) sgl_part_length(part)

/* What depends on more than one part of a number, or takes its argument twice. */
static inline uint32_t sgl_moment_at(uint32_t moment) {
    return moment == 0 ? 0 : 1 - moment % 2;
}
static inline uint32_t sgl_moment_number(uint64_t k) {
    return k > 0x7fffffffu ? 0xfffffffeu : (uint32_t)k * 2u;
}
static inline uint32_t sgl_span_fault(uint64_t span) {
    return SGL_SPAN_FIRST(span) == 0 ? (uint32_t)(span >> 32) : 0;
}
static inline uint32_t sgl_span_last(uint64_t span) {
    return SGL_SPAN_FIRST(span) == 0 ? 0 : (uint32_t)(span >> 32);
}
static inline uint32_t sgl_place_word(const uint8_t *sheet, uint64_t place, uint32_t i) {
    const uint8_t *byte;
    if (i >= SGL_PLACE_WORDS(place))
        return 0;
    byte = sheet + SGL_PLACE_START(place) + (size_t)4 * i;
    return (uint32_t)byte[0] | (uint32_t)byte[1] << 8 | (uint32_t)byte[2] << 16 | (uint32_t)byte[3] << 24;
}
static inline uint32_t sgl_part_name_start(uint64_t part) {
    return SGL_PART_KIND(part) == SGL_PART_NAME ? (uint32_t)(part >> 8 & 0xffffffffu) : 0;
}
static inline uint32_t sgl_part_name_count(uint64_t part) {
    return SGL_PART_KIND(part) == SGL_PART_NAME ? (uint32_t)(part >> 4 & 15u) : 0;
}
static inline uint32_t sgl_part_length(uint64_t part) {
    return SGL_PART_KIND(part) >= SGL_PART_TON && SGL_PART_KIND(part) <= SGL_PART_TP ? (uint32_t)(part >> 4 & 0xffffffffu) : 0;
}

/* The fault of a list. Faults 1, 2, then word by word 3, 4. */
uint32_t sgl_list_fault(const uint32_t *list, size_t list_words);

/* The normal list of a list that may have words that change nothing. An output as long as the list is always long enough.
   Faults 1, 2, 3, 7. */
uint32_t sgl_tidy(const uint32_t *list, size_t list_words, uint32_t *out, size_t out_words);

/* The value at the instant k, and in the gap between k and k + 1. Faults of the list, 9. */
uint32_t sgl_value_at(const uint32_t *list, size_t list_words, uint32_t k);
uint32_t sgl_value_in(const uint32_t *list, size_t list_words, uint32_t k);

/* Values of a list's signal at rising moments, in time linear in both: writes a word for each moment, 1 for up and 0 for down, as
 * the two calls above tell them one by one. The moments are numbers from 1 to 2 * SGL_M + 1, each above the one before it: those
 * that SGL_INSTANT and SGL_GAP make, or that verdicts and spans give; there are at most SGL_COLUMN_MOMENTS, or none. The words
 * passed are the list's words dated at or before the last moment, the first word counted as date 0; no moments pass none. The list
 * of a signal on a sheet is looked up first (sgl_lookup, sgl_place_word). Faults of the list, 20 of any moment, 9 of any, 7. */
uint64_t sgl_values(const uint32_t *list, size_t list_words, const uint32_t *moments, size_t moment_count,
                    uint32_t *out, size_t out_words);

/* Whether two lists give one signal. Faults of a, of b. */
uint32_t sgl_equal(const uint32_t *a, size_t a_words, const uint32_t *b, size_t b_words);

/* Verdict of a to b: wherever a is up, b is up. Faults of a, of b. */
uint64_t sgl_implies(const uint32_t *a, size_t a_words, const uint32_t *b, size_t b_words);

/* The same as a span: from when it fails, and until when. Faults as above. */
uint64_t sgl_implies_span(const uint32_t *a, size_t a_words, const uint32_t *b, size_t b_words);

/* NOT. Faults of the list, 7. */
uint32_t sgl_not(const uint32_t *a, size_t a_words, uint32_t *out, size_t out_words);

/* A connective by its table: bit 2 * (value of a) + (value of b); only the low four bits count (AND is 8, OR is 14, XOR is 6).
 * Seven arguments: a, b and out are two each, a pointer and a count, and table is one. Faults of a, of b, 5, 7. */
uint32_t sgl_connective(uint32_t table, const uint32_t *a, size_t a_words, const uint32_t *b, size_t b_words,
                        uint32_t *out, size_t out_words);

/* Rising and falling edges. Faults of the list, 7. */
uint32_t sgl_rising(const uint32_t *a, size_t a_words, uint32_t *out, size_t out_words);
uint32_t sgl_falling(const uint32_t *a, size_t a_words, uint32_t *out, size_t out_words);

/* The latches in which set wins and in which reset wins. Faults of s, of r, 5, 7. */
uint32_t sgl_sr(const uint32_t *s, size_t s_words, const uint32_t *r, size_t r_words, uint32_t *out, size_t out_words);
uint32_t sgl_rs(const uint32_t *s, size_t s_words, const uint32_t *r, size_t r_words, uint32_t *out, size_t out_words);

/* The on-delay TON(d,f) and the off-delay TOF(d,f). Faults of the list, 8, 5, 6, 7. */
uint32_t sgl_ton(uint32_t d, const uint32_t *f, size_t f_words, uint32_t *out, size_t out_words);
uint32_t sgl_tof(uint32_t d, const uint32_t *f, size_t f_words, uint32_t *out, size_t out_words);

/* The pulse timer TP(d,f): up from each rising instant of f for d ticks, those that come while a pulse runs ignored.
 * Faults of the list, 8, 5, 6, 7. */
uint32_t sgl_tp(uint32_t d, const uint32_t *f, size_t f_words, uint32_t *out, size_t out_words);

/* Begins a sheet: writes the one without signals, 7 bytes. Fault 7. */
uint32_t sgl_begin(uint8_t *out, size_t out_bytes);

/* The fault of a sheet. Faults 14 to 17, front to back. */
uint32_t sgl_sheet_fault(const uint8_t *sheet, size_t sheet_bytes);

/* Place of the words of a signal on a sheet; the name is given without zero bytes. Faults of the sheet, 16, 13. */
uint64_t sgl_lookup(const uint8_t *sheet, size_t sheet_bytes, const uint8_t *name, size_t name_bytes);

/* Writes the sheet with one signal appended. Eight arguments, two for each slice. Faults of the sheet, 16, of the list, 15, 7. */
uint32_t sgl_append(const uint8_t *sheet, size_t sheet_bytes, const uint8_t *name, size_t name_bytes,
                    const uint32_t *list, size_t list_words, uint8_t *out, size_t out_bytes);

/* A stop: the fault of a formula by itself, and the length of the longest beginning of the text that some formula of the grammar
 * begins with. That is the whole length where the text is a formula (none, 8 or 12); where it is none (11), the
 * byte at which reading stopped, or the whole length where the text is cut short. A text of over 1,024 bytes is not read, and its
 * place is 0. Faults 10, 11, 8, 12. */
uint64_t sgl_formula_fault(const uint8_t *formula, size_t formula_bytes);

/* The parts of a formula in working-out order: left operand, right operand, then their operator. Writes a word for each, at most
 * SGL_FORMULA_PARTS of them, which SGL_PART_KIND and the macros beside it take apart. The output always has SGL_FORMULA_PARTS words,
 * and is one argument, without a count. Faults 10, 11, 8, 12. */
uint32_t sgl_formula_parts(const uint8_t *formula, size_t formula_bytes, uint64_t *parts);

/* The list of a formula's signal on a sheet. The work area has at least SGL_WORK_WORDS words; what it holds before does not
 * matter, and what it holds after is free. Eight arguments, two for each slice. Faults of the sheet, 10, 11, 8, 12, 13, 18, 5 or 6
 * at the first part worked out that meets one, 7. */
uint32_t sgl_evaluate(const uint8_t *sheet, size_t sheet_bytes, const uint8_t *formula, size_t formula_bytes,
                      uint32_t *work, size_t work_words, uint32_t *out, size_t out_words);

/* Verdict of the claim f to g on a sheet, with a work area as above. Eight arguments, two for each slice. Faults of the sheet, of f
 * and then of g 10, 11, 8, 12, 13, then 18, then 5 or 6 at the first part of f, then of g. */
uint64_t sgl_claim(const uint8_t *sheet, size_t sheet_bytes, const uint8_t *f, size_t f_bytes,
                   const uint8_t *g, size_t g_bytes, uint32_t *work, size_t work_words);

/* The same as a span: from when the claim fails, and until when. Eight arguments, two for each slice. Faults as above, packed as a
 * span's. */
uint64_t sgl_claim_span(const uint8_t *sheet, size_t sheet_bytes, const uint8_t *f, size_t f_bytes,
                        const uint8_t *g, size_t g_bytes, uint32_t *work, size_t work_words);

/* Up-time of a signal on a sheet before the date h. Writes its up stretches in order of time, two words each: the first gap and
 * the length in ticks. Gap k lies between k and k + 1; a stretch is a longest run of up gaps, cut at h, and instants play no part.
 * No signal has over 128 stretches: an output of SGL_LIST_WORDS words is never too short. Seven arguments: sheet, name and out are
 * two each, a pointer and a count, and h is one. Faults of the sheet, 16, 13, 19, 7. */
uint64_t sgl_uptime(const uint8_t *sheet, size_t sheet_bytes, const uint8_t *name, size_t name_bytes, uint32_t h,
                    uint32_t *out, size_t out_words);

#ifdef __cplusplus
}
#endif

#endif
