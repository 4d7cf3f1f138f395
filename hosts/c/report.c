/* The report: a line for each budget with the least total, the total that the greedy rule reaches, and the nodes of the optimum
 * placement. */
#include <inttypes.h>
#include <stdio.h>
#include <stdlib.h>

#include "host.h"

static void print_line(size_t b, uint64_t total, uint64_t greedy, const uint16_t *row, size_t k)
{
    printf("%zu %" PRIu64 " %" PRIu64, b, total, greedy);
    print_nodes(row, k);
}

uint32_t print_report(const struct source *s)
{
    size_t words = kterc_scratch_words(s->file, s->length), k = words ? KTERC_BUDGET_OF(s->file) : 0;
    uint64_t *scratch = lent(words, sizeof *scratch);
    uint64_t *totals = lent(k + 1, sizeof *totals), *greedy_totals = lent(k + 1, sizeof *greedy_totals);
    uint16_t *rows = lent((k + 1) * k, sizeof *rows), *greedy_nodes = lent(k, sizeof *greedy_nodes);
    uint32_t answer = kterc_report(s->file, s->length, scratch, words, totals, k + 1, rows, (k + 1) * k, greedy_totals, k + 1,
                                   greedy_nodes, k);
    if (!answer) print_name(s);
    for (size_t b = 0; !answer && b <= k; b++)
        print_line(b, totals[b], greedy_totals[b], rows + b * k, k);
    free(greedy_nodes), free(rows), free(greedy_totals), free(totals), free(scratch);
    return answer;
}
