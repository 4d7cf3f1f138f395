/* What each node is worth at one budget: a line for each node from 1 on with the least total of the placements that have it, the
 * least total of those that don't, and the second minus the first. `none` where no placement has the node. */
#include <inttypes.h>
#include <stdio.h>
#include <stdlib.h>

#include "host.h"

static void print_site(size_t node, uint64_t with, uint64_t without)
{
    if (with == KTERC_NO_TOTAL) printf("%zu none %" PRIu64 " none\n", node, without);
    else printf("%zu %" PRIu64 " %" PRIu64 " %" PRId64 "\n", node, with, without, (int64_t)(without - with));
}

/* Asks about a node and prints its line. The answer for node 1 is that for the file and the budget too. */
static uint32_t answer_site(const struct source *s, size_t node, size_t budget, uint64_t *scratch, size_t words)
{
    uint64_t totals[2];
    uint32_t answer = kterc_with_without(s->file, s->length, node, budget, scratch, words, totals, 2);
    if (answer) return answer;
    if (node == 1) print_name(s);
    print_site(node, totals[0], totals[1]);
    return 0;
}

uint32_t print_sites(const struct source *s, size_t budget)
{
    size_t words = kterc_scratch_words(s->file, s->length), n = words ? KTERC_NODES_OF(s->file) : 0;
    if (n == 1 && budget <= KTERC_BUDGET_OF(s->file)) { /* the server alone: there is no node to ask about */
        print_name(s);
        return 0;
    }
    uint64_t *scratch = lent(words, sizeof *scratch);
    uint32_t answer = answer_site(s, 1, budget, scratch, words);
    for (size_t node = 2; !answer && node < n; node++)
        answer = answer_site(s, node, budget, scratch, words);
    free(scratch);
    return answer;
}
