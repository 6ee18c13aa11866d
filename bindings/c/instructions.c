/* instructions CALL WORDS TIMES: makes one call on lists of so many words, so many times. tests/instructions counts what it executes. */
#include <stdio.h>
#include <stdlib.h>
#include <string.h>
#include "rascrunel.h"

/* Down, then up and down in turn, a change every 10 ticks from a date on. */
static void fill(uint32_t *list, size_t words, uint32_t from) {
    list[0] = 0;
    for (size_t i = 1; i < words; i++)
        list[i] = 4 * (from + 10 * (uint32_t)i) + (i % 2 ? 3 : 0);
}

int main(int argc, char **argv) {
    uint32_t a[SGL_LIST_WORDS], b[SGL_LIST_WORDS], out[SGL_LIST_WORDS];
    uint8_t empty[7], sheet[SGL_SHEET_BYTES];
    if (argc != 4)
        return 2;
    size_t n = (size_t)atoi(argv[2]);
    long times = atol(argv[3]);
    uint64_t got = 0;
    fill(a, n, 0);
    fill(b, n, 5);
    sgl_begin(empty, sizeof empty);
    size_t bytes = SGL_COUNT(sgl_append(empty, sizeof empty, (const uint8_t *)"a", 1, a, n, sheet, sizeof sheet));
    for (long i = 0; i < times; i++) {
        if (!strcmp(argv[1], "tidy"))
            got = sgl_tidy(a, n, out, SGL_LIST_WORDS);
        else if (!strcmp(argv[1], "connective"))
            got = sgl_connective(8, a, n, b, n, out, SGL_LIST_WORDS);
        else if (!strcmp(argv[1], "ton"))
            got = sgl_ton(2, a, n, out, SGL_LIST_WORDS);
        else if (!strcmp(argv[1], "tp"))
            got = sgl_tp(2, a, n, out, SGL_LIST_WORDS);
        else if (!strcmp(argv[1], "sr"))
            got = sgl_sr(a, n, b, n, out, SGL_LIST_WORDS);
        else if (!strcmp(argv[1], "implies"))
            got = sgl_implies(a, n, a, n);
        else if (!strcmp(argv[1], "implies_span"))
            got = a[n - 1] % 2 ? sgl_implies_span(a, n, a, n - 1) : sgl_implies_span(a, n - 1, a, n);
        else if (!strcmp(argv[1], "uptime"))
            got = sgl_uptime(sheet, bytes, (const uint8_t *)"a", 1, SGL_M, out, SGL_LIST_WORDS);
        else
            return 2;
    }
    printf("%llu\n", (unsigned long long)got);
    return 0;
}
