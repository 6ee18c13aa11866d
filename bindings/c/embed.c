/* Makes a sheet of one signal, works out a formula on it and checks a claim. */
#include <stdio.h>
#include "rascrunel.h"

static uint32_t work[SGL_WORK_WORDS];

int main(void) {
    const uint32_t a[] = {0, 23, 36}; /* up from 5, down from 9 */
    uint8_t empty[7], sheet[SGL_SHEET_BYTES];
    uint32_t out[SGL_LIST_WORDS];
    uint32_t begun = sgl_begin(empty, sizeof empty);
    uint32_t made = sgl_append(empty, SGL_COUNT(begun), (const uint8_t *)"a", 1, a, 3, sheet, sizeof sheet);
    uint32_t got = sgl_evaluate(sheet, SGL_COUNT(made), (const uint8_t *)"TON(2,a)", 8, work, SGL_WORK_WORDS, out, SGL_LIST_WORDS);
    if (SGL_FAULT(got)) {
        printf("refused %u\n", SGL_FAULT(got));
        return 1;
    }
    for (uint32_t i = 0; i < SGL_COUNT(got); i++)
        printf("%s%u", i ? ", " : "[", out[i]);
    printf("]\n");
    uint64_t v = sgl_claim_span(sheet, SGL_COUNT(made), (const uint8_t *)"a", 1, (const uint8_t *)"TON(2,a)", 8, work, SGL_WORK_WORDS);
    uint32_t first = SGL_SPAN_FIRST(v), last = SGL_SPAN_LAST(v);
    if (SGL_SPAN_FAULT(v))
        printf("refused %u\n", SGL_SPAN_FAULT(v));
    else if (v == 0)
        printf("holds\n");
    else if (SGL_SPAN_FOR_GOOD(v))
        printf("fails %s %u for good\n", first % 2 ? "after" : "at", first / 2);
    else
        printf("fails %s %u until %s%u\n", first % 2 ? "after" : "at", first / 2, last % 2 ? "before " : "", (last + 1) / 2);
    return 0;
}
