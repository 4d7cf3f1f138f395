/* The texts of the library: its version, and a sentence for each rule. */
#include "kterc.h"

/* By number. Rule 15 is the report program's alone. */
static const char *const sentences[] = {
    [1] = "The file has fewer than 9 bytes.",
    [2] = "The file does not begin with KTR.",
    [3] = "The version is not 1, 2 or 3.",
    [4] = "The number of nodes is not from 1 to 1,024.",
    [5] = "The budget is above 32.",
    [6] = "The file is not exactly 9 + 10 x n bytes long (in version 2: 9 + 12 x n, in version 3: 9 + 13 x n).",
    [7] = "The parent is neither the node before nor an ancestor of it (for node 0: not 0).",
    [8] = "The node is more than 32 links from the server.",
    [9] = "The link to the parent is longer than 1,000 (for node 0: not 0).",
    [10] = "The flow is above 100,000,000.",
    [11] = "The hit ratio is above 1,000 thousandths.",
    [12] = "The set is not strictly ascending, each node from 1 to n - 1 and open.",
    [13] = "There is too little scratch.",
    [14] = "An answer buffer is too short.",
    [16] = "The node is not from 1 to n - 1, or the budget asked for is above the file's.",
    [17] = "The cachable bytes exceed the flow.",
    [24] = "The byte that says whether a cache may stand there is neither 0 nor 1.",
};

const char *kterc_version(void) { return KTERC_VERSION; }

const char *kterc_rule_text(uint32_t rule) { return rule < sizeof sentences / sizeof *sentences ? sentences[rule] : NULL; }
