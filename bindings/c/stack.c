/* The formulas that go deepest, up-times of the longest sheet and columns of the longest list, each called in a thread of
 * SGL_STACK_BYTES bytes of stack with a guard below it: a call that needs more ends the program. Prints the most that a call used.
 * `stack N` gives the threads N bytes instead. */
#define _DEFAULT_SOURCE
#include <pthread.h>
#include <stdio.h>
#include <stdlib.h>
#include <string.h>
#include <sys/mman.h>
#include <unistd.h>
#include "rascrunel.h"

#define PAINT 0xa5

/* What opens a level, what stands in the innermost, and what closes a level. */
static const struct { const char *open, *inner, *close; } shapes[] = {
    {"(", "a", ")"},         {"!", "a", ""},         {"^", "a", ""},            {"~", "a", ""},           {"(!", "a", ")"},
    {"SR(", "a", ",a)"},     {"SR(a,", "a", ")"},    {"RS(", "a", ",a)"},       {"RS(a,", "a", ")"},      {"!SR(a,", "a", ")"},
    {"TON(0,", "a", ")"},    {"TOF(12,", "a", ")"},  {"!TON(0,", "a", ")"},     {"a+", "a", ""},          {"a.", "a", ""},
    {"(a+", "a", ")"},       {"(a.", "a", ")"},      {"(a+a.", "a", ")"},       {"!(a.", "a", ")"},       {"a+(", "a", ")"},
    {"a.(", "a", ")"},       {"SR(a+", "a", ",a)"},  {"SR(a,a.", "a", ")"},     {"TON(0,a+", "a", ")"},   {"TON(0,a.a+", "a", ")"},
    {"a+!(", "a", ")"},      {"(a+!", "a", ")"},     {"(0.!", "1", ")"},        {"TP(0,", "a", ")"},      {"!TP(0,", "a", ")"},
    {"TP(0,a+", "a", ")"},
};

static const uint8_t sheet[] = {83, 71, 76, 1, 0, 1, 0, 97, 0, 0, 0, 0, 0, 0, 0, 3, 0, 0, 0, 0, 0, 23, 0, 0, 0, 36, 0, 0, 0};
static uint8_t full[2][SGL_SHEET_BYTES];
static uint32_t list[SGL_LIST_WORDS], out[SGL_LIST_WORDS], work[SGL_WORK_WORDS];
static char text[SGL_FORMULA_BYTES + 2];
static size_t bytes, gaps, stack = SGL_STACK_BYTES, most;
static uint64_t answer;
static int failed;

static void *evaluate(void *none) {
    answer = SGL_FAULT(sgl_evaluate(sheet, sizeof sheet, (const uint8_t *)text, bytes, work, SGL_WORK_WORDS, out, SGL_LIST_WORDS));
    return none;
}

static void *claim_from(void *none) {
    answer = SGL_VERDICT_FAULT(
        sgl_claim(sheet, sizeof sheet, (const uint8_t *)text, bytes, (const uint8_t *)"1", 1, work, SGL_WORK_WORDS));
    return none;
}

static void *claim_to(void *none) {
    answer = SGL_VERDICT_FAULT(
        sgl_claim(sheet, sizeof sheet, (const uint8_t *)"a", 1, (const uint8_t *)text, bytes, work, SGL_WORK_WORDS));
    return none;
}

static void *span_from(void *none) {
    answer = SGL_SPAN_FAULT(
        sgl_claim_span(sheet, sizeof sheet, (const uint8_t *)text, bytes, (const uint8_t *)"1", 1, work, SGL_WORK_WORDS));
    return none;
}

static void *span_to(void *none) {
    answer = SGL_SPAN_FAULT(
        sgl_claim_span(sheet, sizeof sheet, (const uint8_t *)"a", 1, (const uint8_t *)text, bytes, work, SGL_WORK_WORDS));
    return none;
}

static void *formula_fault(void *none) {
    answer = SGL_STOP_FAULT(sgl_formula_fault((const uint8_t *)text, bytes));
    return none;
}

static void *formula_parts(void *none) {
    static uint64_t parts[SGL_FORMULA_PARTS];
    answer = SGL_FAULT(sgl_formula_parts((const uint8_t *)text, bytes, parts));
    return none;
}

static void *uptime(void *none) {
    answer = SGL_UPTIME_FAULT(sgl_uptime(full[0], SGL_SHEET_BYTES, (const uint8_t *)text, bytes, SGL_M, out, SGL_LIST_WORDS));
    return none;
}

static void *values(void *none) {
    static uint32_t moments[SGL_COLUMN_MOMENTS + 1], column[SGL_COLUMN_MOMENTS];
    uint32_t i;
    for (i = 0; i < gaps; i++)
        moments[i] = SGL_GAP(i);
    answer = SGL_COLUMN_FAULT(sgl_values(list, SGL_LIST_WORDS, moments, gaps, column, SGL_COLUMN_MOMENTS));
    return none;
}

static void stop(const char *what) {
    perror(what);
    exit(2);
}

/* One call in a thread whose stack is painted first, so that what it used can be told. */
static void call(void *(*run)(void *), uint64_t fault) {
    size_t page = (size_t)sysconf(_SC_PAGESIZE), used = stack;
    unsigned char *room = mmap(NULL, page + stack, PROT_READ | PROT_WRITE, MAP_PRIVATE | MAP_ANONYMOUS, -1, 0);
    pthread_attr_t attr;
    pthread_t thread;
    if (room == MAP_FAILED || mprotect(room, page, PROT_NONE) != 0)
        stop("mmap");
    memset(room + page, PAINT, stack);
    if (pthread_attr_init(&attr) != 0 || pthread_attr_setstack(&attr, room + page, stack) != 0 ||
        pthread_create(&thread, &attr, run, NULL) != 0 || pthread_join(thread, NULL) != 0)
        stop("thread");
    while (used > 0 && room[page + stack - used] == PAINT)
        used--;
    if (used > most)
        most = used;
    if (answer != fault) {
        printf("%.20s, %lu bytes: fault %lu, not %lu\n", text, (unsigned long)bytes, (unsigned long)answer, (unsigned long)fault);
        failed = 1;
    }
    pthread_attr_destroy(&attr);
    munmap(room, page + stack);
}

static void calls(uint64_t fault) {
    call(evaluate, fault);
    call(claim_from, fault);
    call(claim_to, fault);
    call(span_from, fault);
    call(span_to, fault);
    call(formula_fault, fault);
    call(formula_parts, fault);
}

static void add(const char *part) {
    memcpy(text + bytes, part, strlen(part));
    bytes += strlen(part);
}

/* The longest sheet: 32 signals, a to z and then aa to ff, of 256 words that go up and down in turn, the longest list. */
static void fill(void) {
    uint32_t n, i;
    for (i = 1; i < SGL_LIST_WORDS; i++)
        list[i] = 4 * i + (i % 2 ? 3 : 0);
    n = sgl_begin(full[0], SGL_SHEET_BYTES);
    for (i = 0; i < 32; i++) {
        memset(text, 'a' + (int)(i % 26), 2);
        n = sgl_append(full[i % 2], n, (const uint8_t *)text, 1 + i / 26, list, SGL_LIST_WORDS, full[(i + 1) % 2], SGL_SHEET_BYTES);
    }
    if (n != SGL_SHEET_BYTES) {
        printf("no longest sheet: %lu\n", (unsigned long)n);
        exit(2);
    }
}

int main(int count, char **words) {
    size_t i, k, n;
    if (count > 1)
        stack = (size_t)strtoul(words[1], NULL, 10);
    for (i = 0; i < sizeof shapes / sizeof *shapes; i++) {
        size_t open = strlen(shapes[i].open), level = open + strlen(shapes[i].close);
        /* as many levels as fit, none closed: outside the grammar */
        for (bytes = 0, n = SGL_FORMULA_BYTES / open; n > 0; n--)
            add(shapes[i].open);
        calls(11);
        /* as many whole ones as fit: over 32 parts, or too deep */
        n = (SGL_FORMULA_BYTES - 1) / level;
        for (bytes = 0, k = 0; k < n; k++)
            add(shapes[i].open);
        for (add(shapes[i].inner); k > 0; k--)
            add(shapes[i].close);
        calls(12);
    }
    memset(text, '(', sizeof text);
    bytes = SGL_FORMULA_BYTES + 1;
    calls(10);
    fill();
    for (i = 0; i < 4; i++) {
        static const struct { const char *name; uint64_t fault; } names[] = {{"a", 0}, {"ff", 0}, {"none", 13}, {"None", 16}};
        bytes = 0;
        add(names[i].name);
        call(uptime, names[i].fault);
    }
    gaps = SGL_COLUMN_MOMENTS;
    call(values, 0);
    gaps = SGL_COLUMN_MOMENTS + 1;
    call(values, 20);
    printf("stack: at most %lu of %lu bytes\n", (unsigned long)most, (unsigned long)stack);
    return failed;
}
