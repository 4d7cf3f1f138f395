/* The proved library against the reference in C: random trees of every size in each version, trees of every shape with just the
 * words of scratch that are asked and with one less, damaged files, buffers of wrong lengths, and guard words around all that is
 * lent; and nodes, targets and sets of full-size trees, whose files are the arguments. Stops at the first difference. Then the
 * stack that the calls take. */
#include <inttypes.h>
#include <stdio.h>
#include <stdlib.h>
#include <string.h>

#include "kterc.h"
#include "lend.h"
#include "reference.h"
#include "stack.h"
#include "trees.h"

/* In each version: trees of one size and of few nodes, of which those of fewest have each pair of sets ranked, and damaged files of
 * each tree. In each full-size tree: nodes asked about beside those of the plan, and pairs of sets. */
enum { EACH_SIZE = 2, SMALL = 2000, SMALL_NODES = 9, PAIRS_NODES = 5, DAMAGED = 4, OTHERS = 32, FULL_PAIRS = 32 };

_Static_assert(KTERC_SCRATCH_WORDS == SCRATCH_WORDS, "the most words of scratch");

static uint64_t seed = 20000601;

/* Trees of the version at hand and of them those enumerated; trees at the boundary of rule 13, files, sets with a closed node,
 * nodes asked about, of them those answered for, those of few nodes and those of full-size plans, and calls, of all versions. */
static struct { long trees, enumerated, boundary, damaged, closed, asked, answered, every_set, planned, calls, refused; } count;

/* Targets asked about, of them those with a budget, those with none, those of few nodes, and those out of reach that came with an
 * array too short. */
static struct { long asked, found, none, every_set, short_beyond; } targets;

/* Records asked for, of them those found; pairs of sets, of them those ranked, those with the second first, of equal sets, and of
 * other sets with equal totals. */
static struct { long asked, found; } records;
static struct { long asked, ranked, second, same, ties; } pairs;

/* The tree at hand, its file and what the reference says of it; and the same before the file was damaged. */
static struct {
    uint8_t file[DAMAGED_BYTES];
    size_t length, n, k, words;
    uint32_t code;
    struct tree tree;
    struct plan plan;
    struct greedy greedy;
} at, undamaged;

static uint64_t table[FILL_WORDS];

/* What the reference says of the node last answered for: the least total with it, and without it. */
static uint64_t least[2];

static void check_that(int holds, const char *what)
{
    if (holds) return;
    FILE *f = fopen("target/differs.ktr", "wb");
    if (f) fwrite(at.file, 1, at.length, f), fclose(f);
    printf("differs: %s, on the file target/differs.ktr of %zu bytes\n", what, at.length);
    exit(1);
}

static uint64_t upto(uint64_t most) { return (noise(&seed) >> 20) % (most + 1); }

/* A length for a buffer of which `asked` entries are asked: mostly as many, or more, or fewer. */
static size_t vary(size_t asked)
{
    uint64_t kind = upto(15);
    if (kind == 0 && asked) return upto(asked - 1);
    if (kind == 1 && asked) return asked - 1;
    return kind < 9 ? asked : asked + upto(9);
}

/* The rules on the file, then the call's own `rule`, then 14. */
static uint32_t first_broken(uint32_t rule, int holds, int buffers_long)
{
    uint32_t answer = at.code ? at.code : !holds ? rule : !buffers_long ? 14 : 0;
    count.calls++, count.refused += answer != 0;
    return answer;
}

/* An array after a call: `bytes` of `expected` in front if it was accepted, and all else as before. */
static void check_array(struct lent *l, uint32_t answer, const void *expected, size_t bytes, const char *what)
{
    if (!answer) check_that(!memcmp(l->memory, expected, bytes), what);
    check_that(kept(l, answer ? 0 : bytes), what);
    give_back(l);
}

static void check_scratch(struct lent *l, uint32_t answer)
{
    check_that(kept(l, answer ? 0 : at.words * sizeof(uint64_t)), "scratch beyond the words asked");
    give_back(l);
}

/* ---- the calls */

static const uint16_t *plan_rows(void)
{
    static uint16_t rows[(BUDGET + 1) * BUDGET];
    for (size_t b = 0; b <= at.k; b++)
        memcpy(rows + b * at.k, at.plan.row[b], at.k * sizeof *rows);
    return rows;
}

static void try_plan(size_t words)
{
    size_t k = at.k, t = vary(k + 1), r = vary((k + 1) * k);
    struct lent scratch = lend(words, 8, &seed), totals = lend(t, 8, &seed), rows = lend(r, 2, &seed);
    uint32_t answer = kterc_plan(at.file, at.length, (uint64_t *)scratch.memory, words, (uint64_t *)totals.memory, t,
                                 (uint16_t *)rows.memory, r);
    check_that(answer == first_broken(13, words >= at.words, t >= k + 1 && r >= (k + 1) * k), "the plan's answer");
    check_array(&totals, answer, at.plan.total, (k + 1) * 8, "the plan's totals");
    check_array(&rows, answer, plan_rows(), (k + 1) * k * 2, "the plan's rows");
    check_scratch(&scratch, answer);
}

static void try_greedy(size_t words)
{
    size_t k = at.k, t = vary(k + 1), r = vary(k);
    struct lent scratch = lend(words, 8, &seed), totals = lend(t, 8, &seed), nodes = lend(r, 2, &seed);
    uint32_t answer = kterc_greedy(at.file, at.length, (uint64_t *)scratch.memory, words, (uint64_t *)totals.memory, t,
                                   (uint16_t *)nodes.memory, r);
    check_that(answer == first_broken(13, words >= at.words, t >= k + 1 && r >= k), "the greedy rule's answer");
    check_array(&totals, answer, at.greedy.total, (k + 1) * 8, "the greedy rule's totals");
    check_array(&nodes, answer, at.greedy.node, k * 2, "the greedy rule's nodes");
    check_scratch(&scratch, answer);
}

static void try_report(size_t words)
{
    size_t k = at.k, t = vary(k + 1), r = vary((k + 1) * k), g = vary(k + 1), s = vary(k);
    struct lent scratch = lend(words, 8, &seed), totals = lend(t, 8, &seed), rows = lend(r, 2, &seed);
    struct lent greedy_totals = lend(g, 8, &seed), greedy_nodes = lend(s, 2, &seed);
    uint32_t answer = kterc_report(at.file, at.length, (uint64_t *)scratch.memory, words, (uint64_t *)totals.memory, t,
                                   (uint16_t *)rows.memory, r, (uint64_t *)greedy_totals.memory, g,
                                   (uint16_t *)greedy_nodes.memory, s);
    int buffers_long = t >= k + 1 && r >= (k + 1) * k && g >= k + 1 && s >= k;
    check_that(answer == first_broken(13, words >= at.words, buffers_long), "the report's answer");
    check_array(&totals, answer, at.plan.total, (k + 1) * 8, "the report's plan totals");
    check_array(&rows, answer, plan_rows(), (k + 1) * k * 2, "the report's plan rows");
    check_array(&greedy_totals, answer, at.greedy.total, (k + 1) * 8, "the report's greedy totals");
    check_array(&greedy_nodes, answer, at.greedy.node, k * 2, "the report's greedy nodes");
    check_scratch(&scratch, answer);
}

static int is_set(const uint16_t *set, size_t members)
{
    for (size_t i = 0; i < members; i++)
        if (set[i] >= at.n || set[i] <= (i ? set[i - 1] : 0) || !at.tree.open[set[i]]) return 0;
    return 1;
}

static void try_bill(const uint16_t *set, size_t members)
{
    static struct bill bill;
    size_t n = at.n, o = vary(1), v = vary(n), l = vary(n);
    int good = is_set(set, members);
    struct lent total = lend(o, 8, &seed), serving = lend(v, 2, &seed), loads = lend(l, 8, &seed);
    uint32_t answer = kterc_bill(at.file, at.length, set, members, (uint64_t *)total.memory, o, (uint16_t *)serving.memory, v,
                                 (uint64_t *)loads.memory, l);
    if (!at.code && good) planner.bill(&at.tree, set, members, &bill);
    check_that(answer == first_broken(12, good, o >= 1 && v >= n && l >= n), "the bill's answer");
    check_array(&total, answer, &bill.total, 8, "the bill's total");
    check_array(&serving, answer, bill.serving, n * 2, "the serving nodes");
    check_array(&loads, answer, bill.load, n * 8, "the link loads");
}

/* ---- with a node and without it */

static size_t planned(size_t b)
{
    size_t members = 0;
    while (members < at.k && at.plan.row[b][members])
        members++;
    return members;
}

/* What differs, at which node and budget. */
static const char *asked(const char *what, size_t node, size_t b)
{
    static char text[120];
    snprintf(text, sizeof text, "%s with node %zu and without it at budget %zu", what, node, b);
    return text;
}

/* The smaller total is the plan's. The plan has the node only if the first is no larger, and has it if the first is smaller. */
static void check_beside_plan(size_t node, size_t b)
{
    int has = 0;
    for (size_t i = 0; i < planned(b); i++)
        has |= at.plan.row[b][i] == node;
    check_that((least[0] < least[1] ? least[0] : least[1]) == at.plan.total[b], asked("the plan's total", node, b));
    check_that(has ? least[0] <= least[1] : least[0] >= least[1], asked("the plan's row", node, b));
}

static void try_with_without(size_t node, size_t b, size_t words, size_t t)
{
    int good = node >= 1 && node < at.n && b <= at.k;
    struct lent scratch = lend(words, 8, &seed), totals = lend(t, 8, &seed);
    uint32_t answer = kterc_with_without(at.file, at.length, node, b, (uint64_t *)scratch.memory, words,
                                         (uint64_t *)totals.memory, t);
    check_that(answer == first_broken(good ? 13 : 16, good && words >= at.words, t >= 2), asked("the answer", node, b));
    if (!answer) planner.with_without(&at.tree, table, node, b, least);
    check_array(&totals, answer, least, sizeof least, asked("the totals", node, b));
    check_scratch(&scratch, answer);
    if (!answer) check_beside_plan(node, b);
    count.asked++, count.answered += !answer;
}

/* A number above x that ends in the same 16 or 32 bits. */
static size_t far_above(size_t x) { return x + ((size_t)1 << (upto(1) ? 16 : 32)); }

static size_t some_budget(void)
{
    switch (upto(15)) {
    case 0: return 0;
    case 1: return at.k + 1;
    case 2: return upto(1) ? SIZE_MAX : far_above(upto(at.k));
    case 3: case 4: case 5: return at.k;
    default: return upto(at.k);
    }
}

/* One of the plan's row b, or any, or none of the tree's. */
static size_t some_node(size_t b)
{
    size_t row = b < at.k ? b : at.k, members = planned(row);
    uint64_t kind = upto(15);
    if (kind < 6 && members) return at.plan.row[row][upto(members - 1)];
    switch (kind) {
    case 6: return 0;
    case 7: return at.n;
    case 8: return upto(1) ? 65535 : SIZE_MAX;
    case 9: return far_above(upto(at.n - 1));
    case 10: return upto(1) ? 1 : at.n - 1;
    default: return upto(at.n - 1);
    }
}

static void try_some_node(size_t words)
{
    size_t b = some_budget(), node = some_node(b);
    try_with_without(node, b, words, vary(2));
}

/* ---- from a target to a budget */

static const char *for_target(const char *what, uint64_t target)
{
    static char text[120];
    snprintf(text, sizeof text, "%s for the target %" PRIu64, what, target);
    return text;
}

/* With b entries for the budget and r for the row. The row found has as many nodes as the budget says. */
static void try_target(uint64_t target, size_t words, size_t b, size_t r)
{
    size_t k = at.k;
    uint16_t least = planner.least_budget(&at.tree, &at.plan, target);
    struct lent scratch = lend(words, 8, &seed), budget = lend(b, 2, &seed), row = lend(r, 2, &seed);
    uint32_t answer = kterc_target(at.file, at.length, target, (uint64_t *)scratch.memory, words, (uint16_t *)budget.memory, b,
                                   (uint16_t *)row.memory, r);
    uint32_t refusal = first_broken(13, words >= at.words, b >= 1 && r >= k);
    check_that(answer == (refusal ? refusal : least > k ? KTERC_NONE : 0), for_target("the answer", target));
    check_array(&budget, answer, &least, 2, for_target("the budget", target));
    check_array(&row, answer, at.plan.row[answer ? 0 : least], k * 2, for_target("the row", target));
    check_scratch(&scratch, refusal);
    if (!answer) check_that(planned(least) == least, for_target("the number of nodes in the row", target));
    targets.asked++, targets.found += !answer, targets.none += answer == KTERC_NONE;
    targets.short_beyond += answer == 14 && least > k;
}

/* At a total of the plan, beside it, and far from it. One below 0 is the largest number. */
static uint64_t some_target(void)
{
    uint64_t total = at.plan.total[upto(at.k)];
    switch (upto(7)) {
    case 0: return total - 1;
    case 1: return total + 1;
    case 2: return upto(1) ? 0 : UINT64_MAX;
    case 3: return at.plan.total[at.k] - 1;
    case 4: return upto(at.plan.total[0]);
    default: return total;
    }
}

static void try_some_target(size_t words)
{
    try_target(some_target(), words, vary(1), vary(at.k));
}

/* The scratch one word too short, then each array one entry, for a target that every budget meets and for one that none does, if
 * there is one. */
static void try_short_for_target(void)
{
    uint64_t ends[] = { UINT64_MAX, at.plan.total[at.k] - 1 };
    for (int i = 0; i < 2; i++) {
        try_target(ends[i], at.words - 1, 1, at.k);
        try_target(ends[i], at.words - 1, 0, 0);
        try_target(ends[i], at.words, 0, at.k);
        if (at.k) try_target(ends[i], at.words, 1, at.k - 1);
    }
}

/* ---- the record of a node */

/* The fields that stand there are those that the reference has read. */
static int is_record_of(const uint8_t *record, size_t node)
{
    int version = number(at.file + 3, 2);
    uint64_t flow = number(record + 4, 4), part = number(record + 8, version == 1 ? 2 : 4);
    return number(record, 2) == (uint32_t)at.tree.parent[node] && number(record + 2, 2) == at.tree.length[node]
           && 1000 * flow == at.tree.full[node] && part * (version == 1 ? flow : 1000) == at.tree.cachable[node]
           && (version < 3 || record[12] == at.tree.open[node]);
}

static const char *of_node(const char *what, size_t node)
{
    static char text[120];
    snprintf(text, sizeof text, "%s of node %zu", what, node);
    return text;
}

static void try_record(size_t node)
{
    size_t place = kterc_record(at.file, at.length, node);
    int there = !at.code && node < at.n;
    size_t bytes = there ? record_bytes(number(at.file + 3, 2)) : 0;
    check_that(place == (there ? HEADER + bytes * node : 0), of_node("the place of the record", node));
    if (there) check_that(is_record_of(at.file + place, node), of_node("the record", node));
    if (there) check_that(bytes == KTERC_RECORD_BYTES(at.file), "the bytes of a record");
    records.asked++, records.found += there;
}

/* The first and the last record, one of the others, and beyond. */
static void try_some_records(void)
{
    const size_t nodes[] = { 0, at.n - 1, upto(at.n - 1), at.n, at.n + 1 + upto(NODES), far_above(upto(at.n - 1)), SIZE_MAX };
    for (size_t i = 0; i < sizeof nodes / sizeof *nodes; i++)
        try_record(nodes[i]);
}

static void try_each_record(void)
{
    for (size_t node = 0; node <= at.n; node++)
        try_record(node);
}

/* ---- the ranking of two sets */

static int same_set(const uint16_t *a, size_t a_members, const uint16_t *b, size_t b_members)
{
    return a_members == b_members && !memcmp(a, b, a_members * sizeof *a);
}

/* How the pair ranks, by the reference, and which kind of pair it is. */
static uint32_t ranked(const uint16_t *a, size_t a_members, const uint16_t *b, size_t b_members)
{
    static struct bill x, y;
    int same = same_set(a, a_members, b, b_members), second = planner.ranks_before(&at.tree, b, b_members, a, a_members);
    planner.bill(&at.tree, a, a_members, &x);
    planner.bill(&at.tree, b, b_members, &y);
    pairs.ranked++, pairs.second += second, pairs.same += same, pairs.ties += !same && x.total == y.total;
    return second ? KTERC_SECOND : KTERC_FIRST;
}

/* Two sets in memory of their own: they stay as they are, and so does the file. */
static void try_rank(const uint16_t *a, size_t a_members, const uint16_t *b, size_t b_members)
{
    static uint8_t file[DAMAGED_BYTES];
    struct lent first = lend_copy(a, a_members, sizeof *a, &seed), second = lend_copy(b, b_members, sizeof *b, &seed);
    memcpy(file, at.file, sizeof file);
    uint32_t answer = kterc_rank(at.file, at.length, (uint16_t *)first.memory, a_members, (uint16_t *)second.memory, b_members);
    uint32_t refusal = first_broken(12, is_set(a, a_members) && is_set(b, b_members), 1);
    check_that(answer == (refusal ? refusal : ranked(a, a_members, b, b_members)), "the ranking");
    check_that(kept(&first, 0) && kept(&second, 0) && !memcmp(file, at.file, sizeof file), "what is ranked");
    give_back(&first), give_back(&second);
    pairs.asked++;
}

/* In both orders. */
static void try_pair(const uint16_t *a, size_t a_members, const uint16_t *b, size_t b_members)
{
    try_rank(a, a_members, b, b_members);
    try_rank(b, b_members, a, a_members);
}

/* A set of any size beside one near it, the plan's, and one with a closed node or that is none. */
static void try_some_pairs(void)
{
    uint16_t a[NODES + 1] = { 0 }, b[NODES + 1] = { 0 };
    size_t a_members = random_set(a, &at.tree, &seed), b_members = near_set(b, a, a_members, &at.tree, &seed);
    try_pair(a, a_members, b, b_members);
    try_pair(a, a_members, at.plan.row[at.k], planned(at.k));
    if (add_closed(b, b_members, &at.tree, &seed)) try_pair(a, a_members, b, ++b_members);
    b[upto(b_members)] = upto(at.n + 1);
    try_pair(a, a_members, b, b_members + upto(1));
}

/* The plan's row ranks before every other set of at most so many nodes. */
static void try_plan_first(void)
{
    uint16_t near[NODES];
    size_t b = upto(at.k), members = planned(b), near_members = near_set(near, at.plan.row[b], members, &at.tree, &seed);
    check_that(!planner.ranks_before(&at.tree, near, near_members, at.plan.row[b], members), "the reference's ranking of the plan");
    try_pair(at.plan.row[b], members, near, near_members);
}

static size_t members_of(unsigned mask, uint16_t *set)
{
    size_t members = 0;
    for (size_t v = 1; v < at.n; v++)
        if (mask >> v & 1) set[members++] = v;
    return members;
}

/* Each pair of sets, of those with a closed node too. */
static void try_each_pair(void)
{
    uint16_t a[PAIRS_NODES], b[PAIRS_NODES];
    for (unsigned i = 0; i < 1u << at.n; i += 2)
        for (unsigned j = 0; j < 1u << at.n; j += 2)
            try_rank(a, members_of(i, a), b, members_of(j, b));
}

/* ---- a file */

static void try_sets(void)
{
    uint16_t set[NODES + 1] = { 0 };
    size_t members = random_set(set, &at.tree, &seed);
    try_bill(at.plan.row[at.k], planned(at.k));
    try_bill(set, members);
    if (add_closed(set, members, &at.tree, &seed)) try_bill(set, ++members), count.closed += !at.code;
    set[upto(members)] = upto(at.n + 1);
    try_bill(set, members + upto(1));
}

static void try_file(void)
{
    check_that(kterc_check(at.file, at.length) == at.code % 256, "the check");
    check_that(kterc_scratch_words(at.file, at.length) == (at.code ? 0 : at.words), "the words of scratch");
    try_plan(vary(at.words));
    try_greedy(vary(at.words));
    try_report(vary(at.words));
    try_sets();
    try_some_node(vary(at.words));
    try_some_target(vary(at.words));
    try_some_records();
    try_some_pairs();
}

static void read_file(void)
{
    at.code = planner.read(at.file, at.length, &at.tree);
    if (at.code) return; /* sizes stay those of the tree before: lengths to lend */
    at.n = at.tree.n, at.k = at.tree.k;
    at.words = planner.words(&at.tree);
}

static void same_plan(const struct plan *other, const char *what)
{
    for (size_t b = 0; b <= at.k; b++)
        check_that(at.plan.total[b] == other->total[b] && !memcmp(at.plan.row[b], other->row[b], sizeof other->row[b]), what);
}

/* The reference's three ways to fill the table against each other, the packed one in just the words asked. */
static void solve(void)
{
    static struct plan other;
    struct lent scratch = lend(at.words, 8, &seed);
    planner.plan(&at.tree, table, RUNS, &at.plan);
    planner.plan(&at.tree, table, SPLITS, &other);
    same_plan(&other, "the reference");
    planner.plan(&at.tree, (uint64_t *)scratch.memory, PACKED, &other);
    same_plan(&other, "the reference with a packed table");
    check_scratch(&scratch, 0);
    planner.greedy(&at.tree, &at.greedy);
}

static void try_tree(int version, int n)
{
    at.length = random_tree(at.file, version, n, upto(BUDGET), &seed);
    read_file();
    check_that(!at.code, "a tree file was not accepted by the reference");
    solve();
    count.trees++;
    try_file();
    undamaged = at;
    for (int i = 0; i < DAMAGED; i++) {
        at.length = damage(at.file, version, at.length, &seed);
        read_file();
        if (!at.code) solve();
        count.damaged++;
        try_file();
        at = undamaged;
    }
}

/* The reference itself against every set. */
static void enumerate(void)
{
    static struct plan all;
    planner.enumerate(&at.tree, &all);
    same_plan(&all, "the enumeration");
    count.enumerated++;
}

/* Each node at each budget: the library against the reference, and the reference against every set. */
static void enumerate_with_without(void)
{
    uint64_t all[2];
    for (size_t node = 1; node < at.n; node++)
        for (size_t b = 0; b <= at.k; b++) {
            if (b < at.n) planner.enumerate_with_without(&at.tree, node, b, all); /* no set has more than n - 1 nodes */
            try_with_without(node, b, at.words, 2 + upto(2));
            check_that(!memcmp(all, least, sizeof all), asked("the enumeration", node, b));
            count.every_set++;
        }
}

static void enumerate_target(uint64_t target)
{
    uint16_t row[BUDGET];
    size_t all = planner.enumerate_least_budget(&at.tree, target, row), least = planner.least_budget(&at.tree, &at.plan, target);
    try_target(target, at.words, 1 + upto(2), at.k + upto(2));
    check_that(all == least, for_target("the enumeration", target));
    if (least <= at.k) check_that(!memcmp(row, at.plan.row[least], sizeof row), for_target("the enumeration's row", target));
    targets.every_set++;
}

/* At each total of the plan, one below and one above, and the smallest and the largest target: the library against the reference,
 * and the reference against every set. */
static void enumerate_targets(void)
{
    for (size_t b = 0; b <= at.k; b++)
        if (b == 0 || at.plan.total[b] < at.plan.total[b - 1])
            for (int beside = -1; beside <= 1; beside++)
                enumerate_target(at.plan.total[b] + beside);
    enumerate_target(0), enumerate_target(UINT64_MAX);
    try_short_for_target();
}

/* Just the words that rule 13 asks for, one less and one more, for each call. */
static void try_words(void)
{
    for (size_t words = at.words - 1; words <= at.words + 1; words++)
        try_plan(words), try_greedy(words), try_report(words), try_some_node(words), try_some_target(words);
    try_short_for_target();
    try_each_record();
    try_plan_first();
    count.boundary++;
}

/* From one node to all, and from no caches to more than the tree has nodes. */
static void try_boundary(int version)
{
    static const int nodes[] = { 1, 2, 3, 6, 20, 33, 34, 70, 300, NODES }, budgets[] = { 0, 1, 2, 5, 19, BUDGET };
    for (size_t i = 0; i < sizeof nodes / sizeof *nodes * SHAPES; i++)
        for (size_t j = 0; j < sizeof budgets / sizeof *budgets; j++) {
            at.length = shaped_tree(at.file, version, i % SHAPES, nodes[i / SHAPES], budgets[j], &seed);
            read_file();
            check_that(!at.code && at.words <= KTERC_SCRATCH_WORDS, "the words of scratch of a tree file");
            solve();
            try_words();
        }
}

static void try_version(int version)
{
    count.trees = count.enumerated = 0;
    for (int i = 0; i < SMALL; i++) {
        try_tree(version, 1 + upto(SMALL_NODES - 1)), enumerate(), enumerate_with_without(), enumerate_targets();
        try_each_record(), try_plan_first();
        if (at.n <= PAIRS_NODES) try_each_pair();
    }
    for (int n = 1; n <= NODES; n++)
        for (int i = 0; i < EACH_SIZE; i++)
            try_tree(version, n);
    try_boundary(version);
    printf("version %d: %ld random trees of 1 to %d nodes, %ld of them of at most %d nodes and enumerated\n", version,
           count.trees, NODES, count.enumerated, SMALL_NODES);
}

static void load_file(const char *name)
{
    FILE *f = fopen(name, "rb");
    if (!f) {
        perror(name);
        exit(2);
    }
    at.length = fread(at.file, 1, sizeof at.file, f);
    fclose(f);
}

/* Each node of the plan at k, there and at some budget, and others. */
static void try_full_nodes(void)
{
    for (size_t i = 0; i < planned(at.k); i++) {
        try_with_without(at.plan.row[at.k][i], at.k, at.words, 2);
        try_with_without(at.plan.row[at.k][i], upto(at.k), at.words, 2);
        count.planned++;
    }
    for (int i = 0; i < OTHERS; i++)
        try_with_without(1 + upto(at.n - 2), upto(at.k), at.words, 2);
}

/* At, one below and one above the totals of budget 0, of k and of any; and the smallest and the largest target. */
static void try_full_targets(void)
{
    size_t budgets[] = { 0, upto(at.k), at.k };
    for (int i = 0; i < 3; i++)
        for (int beside = -1; beside <= 1; beside++)
            try_target(at.plan.total[budgets[i]] + beside, at.words, 1, at.k);
    try_target(0, at.words, 1, at.k), try_target(UINT64_MAX, at.words, 1, at.k);
    try_short_for_target();
}

static void try_full(const char *name)
{
    load_file(name);
    read_file();
    check_that(!at.code, name);
    solve();
    try_full_nodes();
    try_full_targets();
    try_each_record();
    for (int i = 0; i < FULL_PAIRS; i++)
        try_some_pairs(), try_plan_first();
}

int main(int argc, char **argv)
{
    for (int version = 1; version <= VERSIONS; version++)
        try_version(version);
    for (int i = 1; i < argc; i++)
        try_full(argv[i]);
    printf("%ld trees of every shape with just the words of scratch asked, one less and one more\n", count.boundary);
    printf("%ld damaged files\n", count.damaged);
    printf("%ld sets with a closed node, refused by rule 12\n", count.closed);
    printf("%ld calls with a node and without it, %ld of them accepted, %ld against every set\n", count.asked, count.answered,
           count.every_set);
    printf("%d full-size trees: %ld nodes of their plans and %d others, with each and without it\n", argc - 1, count.planned,
           OTHERS * (argc - 1));
    printf("%ld calls from a target to a budget, %ld of them with a budget and %ld with none, %ld against every set\n",
           targets.asked, targets.found, targets.none, targets.every_set);
    printf("%ld targets out of reach with an array too short, refused by rule 14\n", targets.short_beyond);
    printf("%ld records asked for, %ld of them found\n", records.asked, records.found);
    printf("%ld pairs of sets, %ld of them ranked: %ld with the second first, %ld of equal sets, %ld of others with equal totals\n",
           pairs.asked, pairs.ranked, pairs.second, pairs.same, pairs.ties);
    printf("%ld calls, %ld of them refused, with guards around every buffer\n", count.calls, count.refused);
    printf("none differed\n");
    return !stacks_suffice();
}
