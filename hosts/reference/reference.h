/* The planner once more, in plain C, apart from the proved one: the differential tests compare with it, and the benchmark
 * measures against it. */
#ifndef REFERENCE_H
#define REFERENCE_H

#include <stddef.h>
#include <stdint.h>

enum { NODES = 1024, BUDGET = 32, DEPTH = 32, LENGTH = 1000, HIT = 1000, FLOW = 100000000, HEADER = 9 };

/* Version 1 of the file has hit ratios, version 2 cachable bytes, version 3 also where a cache may stand; and the bytes of a
 * record in each. */
enum { VERSIONS = 3, RECORD_1 = 10, RECORD_2 = 12, RECORD_3 = 13 };

/* The longest file, words of scratch that are enough for rule 13 on each, and those in which each fill of the table has room. */
enum {
    FILE_BYTES = HEADER + RECORD_3 * NODES,
    SCRATCH_WORDS = (NODES - 1) * DEPTH * (BUDGET + 1) + 4 * NODES,
    FILL_WORDS = NODES * (DEPTH + 1) * (BUDGET + 1) + 4 * NODES
};

static inline int record_bytes(int version) { return version == 1 ? RECORD_1 : version == 2 ? RECORD_2 : RECORD_3; }

/* The number in `width` bytes, most significant first. */
static inline uint32_t number(const uint8_t *p, int width)
{
    uint32_t x = 0;
    while (width--)
        x = x << 8 | *p++;
    return x;
}

struct tree {
    int n, k, h;
    int parent[NODES], depth[NODES], first[NODES], next[NODES];
    int open[NODES];             /* 1 where a cache may stand, else 0 */
    int size[NODES], row[NODES]; /* open nodes at or below a node, and in the row of siblings that begins with it */
    int row_nodes[NODES];        /* all nodes of that row, closed ones too */
    size_t start[NODES];         /* where the lines of the row stand in the table, and how many entries each has */
    int width[NODES];
    uint64_t length[NODES], dist[NODES];
    uint64_t full[NODES], cachable[NODES]; /* thousandths: 1000 f; p f, or from version 2 on 1000 times the cachable bytes */
};

struct plan {
    uint64_t total[BUDGET + 1];
    uint16_t row[BUDGET + 1][BUDGET];
};

struct greedy {
    uint64_t total[BUDGET + 1];
    uint16_t node[BUDGET];
};

struct bill {
    uint64_t total;
    uint16_t serving[NODES];
    uint64_t load[NODES];
};

/* How the table is filled, over feasible counts only: the splits of each count one after the other, or the shorter of the two
 * lines outside, both in a table with equal room for each node; or the latter in the words that rule 13 asks for: behind four
 * words of each node the lines, one after another, as many as the node is deep and as long as its row can have caches. */
enum fill { SPLITS, RUNS, PACKED };

/* One object file of reference.c exports one of these; the benchmark links it at two levels of optimization. */
struct planner {
    /* Rules 1 to 11, from version 2 on 17 in the place of 11, and 24 in version 3: 0, or record * 256 + number. */
    uint32_t (*read)(const uint8_t *file, size_t length, struct tree *t);
    /* The words of scratch that rule 13 asks for. */
    size_t (*words)(struct tree *t);
    /* In FILL_WORDS words; PACKED in those of rule 13. */
    void (*plan)(struct tree *t, uint64_t *scratch, enum fill fill, struct plan *p);
    void (*greedy)(const struct tree *t, struct greedy *g);
    /* By the definition of cost, flow by flow. */
    void (*bill)(const struct tree *t, const uint16_t *set, size_t members, struct bill *b);
    /* Whether the first of two sets ranks before the second: by total, then in the order of ties. Equal sets do not. */
    int (*ranks_before)(const struct tree *t, const uint16_t *a, size_t a_members, const uint16_t *b, size_t b_members);
    /* Every set of at most b open nodes, by the ranking word for word; for few nodes. */
    void (*enumerate)(const struct tree *t, struct plan *p);
    /* The least total of at most b caches at open nodes with the node among them, UINT64_MAX where there is no such set, and the
     * least without it. In FILL_WORDS words. */
    void (*with_without)(struct tree *t, uint64_t *scratch, int node, int b, uint64_t totals[2]);
    /* The same over every set, by the bill; for few nodes. */
    void (*enumerate_with_without)(const struct tree *t, int node, int b, uint64_t totals[2]);
    /* The least budget whose total in the tree's plan is no larger than the target, k + 1 where each is larger. */
    int (*least_budget)(const struct tree *t, const struct plan *p, uint64_t target);
    /* The same over every set, by the bill, and the set's nodes, then zeros; for few nodes. */
    int (*enumerate_least_budget)(const struct tree *t, uint64_t target, uint16_t row[BUDGET]);
};

extern const struct planner planner, planner_o2, planner_o3;

#endif
