/* From a target to a budget: one line with the least budget whose optimum placement costs no more than the target, that total and
 * the nodes; or the line `none` where every placement of at most k caches costs more. */
#include <inttypes.h>
#include <stdio.h>
#include <stdlib.h>

#include "host.h"

/* The total of the row's nodes is that of their bill. */
static uint32_t print_found(const struct source *s, const uint16_t *row, size_t budget)
{
    size_t n = KTERC_NODES_OF(s->file);
    uint64_t total, *loads = lent(n, sizeof *loads);
    uint16_t *serving = lent(n, sizeof *serving);
    uint32_t answer = kterc_bill(s->file, s->length, row, budget, &total, 1, serving, n, loads, n);
    if (!answer) {
        print_name(s);
        printf("%zu %" PRIu64, budget, total);
        print_nodes(row, budget);
    }
    free(serving), free(loads);
    return answer;
}

uint32_t print_target(const struct source *s, uint64_t target)
{
    size_t words = kterc_scratch_words(s->file, s->length), k = words ? KTERC_BUDGET_OF(s->file) : 0;
    uint64_t *scratch = lent(words, sizeof *scratch);
    uint16_t budget, *row = lent(k, sizeof *row);
    uint32_t answer = kterc_target(s->file, s->length, target, scratch, words, &budget, 1, row, k);
    if (answer == KTERC_NONE) print_name(s), puts("none"), answer = 0;
    else if (!answer) answer = print_found(s, row, budget);
    free(row), free(scratch);
    return answer;
}
