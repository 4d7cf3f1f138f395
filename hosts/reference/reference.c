#include "reference.h"

#include <string.h>

#ifndef PLANNER
#define PLANNER planner
#endif

#define NONE ((uint64_t)1 << 62)

static inline int min(int a, int b) { return a < b ? a : b; }

/* ---- the file */

/* The hit ratio or the cachable bytes: rule 11 or 17, and the cachable flow in thousandths. */
static uint32_t read_cachable(const uint8_t *field, int version, uint32_t flow, uint64_t *cachable)
{
    if (version == 1) {
        uint32_t hit = number(field, 2);
        *cachable = (uint64_t)hit * flow;
        return hit > HIT ? 11 : 0;
    }
    uint32_t bytes = number(field, 4);
    *cachable = 1000 * (uint64_t)bytes;
    return bytes > flow ? 17 : 0;
}

/* The last byte of a record in version 3: rule 24. */
static uint32_t read_open(const uint8_t *record, int version, int *open)
{
    *open = version < 3 || record[12] == 1;
    return version == 3 && record[12] > 1 ? 24 : 0;
}

static uint32_t read_record(const uint8_t *r, int version, int i, struct tree *t)
{
    int parent = number(r, 2), length = number(r + 2, 2), depth = 0;
    uint32_t flow = number(r + 4, 4);
    if (i == 0 && parent) return 7;
    if (i > 0) {
        int v = i - 1;
        while (v > parent) /* ancestors have smaller numbers */
            v = t->parent[v];
        if (v != parent) return 7;
        depth = t->depth[parent] + 1;
    }
    if (depth > DEPTH) return 8;
    if (length > (i ? LENGTH : 0)) return 9;
    if (flow > FLOW) return 10;
    t->parent[i] = parent;
    t->depth[i] = depth;
    t->length[i] = length;
    t->dist[i] = i ? t->dist[parent] + length : 0;
    t->full[i] = 1000 * (uint64_t)flow;
    if (depth > t->h) t->h = depth;
    uint32_t rule = read_cachable(r + 8, version, flow, &t->cachable[i]);
    return rule ? rule : read_open(r, version, &t->open[i]);
}

static uint32_t read_tree(const uint8_t *file, size_t length, struct tree *t)
{
    if (length < HEADER) return 1;
    if (memcmp(file, "KTR", 3)) return 2;
    int version = number(file + 3, 2), n = number(file + 5, 2), k = number(file + 7, 2);
    if (version < 1 || version > VERSIONS) return 3;
    if (n < 1 || n > NODES) return 4;
    if (k > BUDGET) return 5;
    int record = record_bytes(version);
    if (length != HEADER + (size_t)record * n) return 6;
    t->n = n, t->k = k, t->h = 0;
    for (int i = 0; i < n; i++) {
        uint32_t rule = read_record(file + HEADER + record * i, version, i, t);
        if (rule) return i * 256 + rule;
    }
    return 0;
}

/* First children, next siblings, open nodes at or below each node, and those of the row that begins with it. */
static void link_rows(struct tree *t)
{
    for (int v = 0; v < t->n; v++)
        t->first[v] = t->next[v] = 0, t->size[v] = t->open[v];
    for (int v = t->n - 1; v > 0; v--) {
        int p = t->parent[v];
        t->next[v] = t->first[p];
        t->first[p] = v;
        t->size[p] += t->size[v];
        t->row[v] = t->size[v] + (t->next[v] ? t->row[t->next[v]] : 0);
    }
}

/* ---- the words of scratch */

/* The nodes at or below each node and at or below its later siblings, from the last node down: `below` has those of a node's
 * children that came by. */
static void count_rows(struct tree *t)
{
    int below[NODES] = { 0 };
    for (int v = t->n - 1; v > 0; v--)
        t->row_nodes[v] = below[t->parent[v]] += 1 + below[v];
}

/* How many entries a line of the row that begins with v has, with a place for each number of caches that the row can have. */
static int packed_width(const struct tree *t, int v) { return min(t->k, t->row_nodes[v]) + 1; }

static size_t scratch_words(struct tree *t)
{
    size_t words = 4 * (size_t)t->n;
    count_rows(t);
    for (int v = 1; v < t->n; v++)
        words += t->depth[v] * packed_width(t, v);
    return words;
}

/* ---- the table: the least of the row that begins with v, with exactly m caches, its nearest cache above at depth a */

/* The places of a packed table. */
static void place_lines(struct tree *t)
{
    size_t at = 4 * (size_t)t->n;
    count_rows(t);
    for (int v = 1; v < t->n; v++) {
        t->start[v] = at;
        t->width[v] = packed_width(t, v);
        at += t->depth[v] * t->width[v];
    }
}

/* The row of no nodes has one line, at no place. */
static const uint64_t no_row[BUDGET + 1] = { 0,    NONE, NONE, NONE, NONE, NONE, NONE, NONE, NONE, NONE, NONE,
                                             NONE, NONE, NONE, NONE, NONE, NONE, NONE, NONE, NONE, NONE, NONE,
                                             NONE, NONE, NONE, NONE, NONE, NONE, NONE, NONE, NONE, NONE, NONE };

/* How a table is filled is known wherever a line is read, so that neither layout pays for the other. */
static inline const uint64_t *line(const struct tree *t, const uint64_t *table, int v, int a, enum fill fill)
{
    if (!v) return no_row;
    return fill == PACKED ? table + t->start[v] + (size_t)a * t->width[v] : table + ((size_t)v * (t->h + 1) + a) * (t->k + 1);
}

/* An entry of a line, NONE where the line has no place for so many caches. */
static inline uint64_t entry(const struct tree *t, const uint64_t *table, int v, int a, int m, enum fill fill)
{
    return fill == PACKED && v && m >= t->width[v] ? NONE : line(t, table, v, a, fill)[m];
}

/* The most caches that can be had: among a node's descendants, with the node itself, among its later siblings, in the row. */
struct counts { int below, top, later, all; };

/* A row's line, with entries 0 to `last`, from those of its first node and of the later siblings. */
static inline void join_splits(int last, struct counts c, const uint64_t *node, const uint64_t *rest, uint64_t *out)
{
    for (int m = 0; m <= c.all; m++) {
        int from = m > c.later ? m - c.later : 0, to = min(m, c.top);
        uint64_t best = NONE;
        for (int here = from; here <= to; here++) {
            uint64_t x = node[here] + rest[m - here];
            if (x < best) best = x;
        }
        out[m] = best;
    }
    for (int m = c.all + 1; m <= last; m++)
        out[m] = NONE;
}

static inline void join_runs(int last, struct counts c, const uint64_t *node, const uint64_t *rest, uint64_t *restrict out)
{
    const uint64_t *p = node, *q = rest; /* p the shorter */
    int lp = c.top, lq = c.later;
    if (lp > lq) p = rest, q = node, lp = c.later, lq = c.top;
    for (int j = 0; j <= lq; j++)
        out[j] = p[0] + q[j];
    for (int j = lq + 1; j <= last; j++)
        out[j] = NONE;
    for (int i = 1; i <= lp; i++) {
        int end = min(lq, last - i);
        uint64_t x = p[i];
        for (int j = 0; j <= end; j++) {
            uint64_t sum = x + q[j], old = out[i + j];
            out[i + j] = sum < old ? sum : old;
        }
    }
}

/* The same where the first node has no children: its own line has one entry, or two where a cache may stand. */
static inline void join_leaf(int last, struct counts c, uint64_t plain, uint64_t cached, const uint64_t *rest, uint64_t *restrict out)
{
    uint64_t before = rest[0];
    out[0] = plain + before;
    for (int m = 1; m <= c.later; m++) {
        uint64_t here = rest[m], without = plain + here, with = cached + before;
        out[m] = with < without ? with : without;
        before = here;
    }
    if (c.all > c.later) out[c.all] = cached + before;
    for (int m = c.all + 1; m <= last; m++)
        out[m] = NONE;
}

/* What a node's client costs with a cache there, NONE where none may stand. */
static inline uint64_t own_cost(const struct tree *t, int v)
{
    return t->open[v] ? (t->full[v] - t->cachable[v]) * t->dist[v] : NONE;
}

/* A node's own line from those of its children, for each depth of the nearest cache above, then the row's. In a packed table the
 * last of a row is a row by itself, and its own line is written at once. */
static inline void fill_node(const struct tree *t, uint64_t *table, int v, enum fill fill)
{
    int k = t->k, last = fill == PACKED ? t->width[v] - 1 : k, next = t->next[v], first = t->first[v], serving[DEPTH + 1];
    for (int u = v, a = t->depth[v]; a >= 0; a--, u = t->parent[u])
        serving[a] = u;
    struct counts c = { min(k, t->size[v] - t->open[v]), min(k, t->size[v]), next ? min(k, t->row[next]) : 0, min(k, t->row[v]) };
    const uint64_t *under = line(t, table, first, t->depth[v], fill);
    uint64_t base = t->full[v] * t->dist[v], cached = own_cost(t, v);
    uint64_t with[BUDGET + 1], apart[BUDGET + 1];
    for (int m = 1; m <= c.top; m++)
        with[m] = cached + under[m - 1];
    for (int a = 0; a < t->depth[v]; a++) {
        const uint64_t *spare = line(t, table, first, a, fill), *rest = line(t, table, next, a, fill);
        uint64_t *out = (uint64_t *)line(t, table, v, a, fill), plain = base - t->cachable[v] * t->dist[serving[a]];
        uint64_t *node = fill == PACKED && !next ? out : apart;
        if (fill == PACKED && !first) {
            join_leaf(last, c, plain, cached, rest, out);
            continue;
        }
        node[0] = plain + spare[0];
        for (int m = 1; m <= c.below; m++) {
            uint64_t x = plain + spare[m];
            node[m] = x < with[m] ? x : with[m];
        }
        if (c.top > c.below) node[c.top] = with[c.top];
        if (fill == SPLITS) join_splits(last, c, node, rest, out);
        else if (node == apart) join_runs(last, c, node, rest, out);
        else
            for (int m = c.all + 1; m <= last; m++) out[m] = NONE;
    }
}

/* ---- the walk: the first set in the order of ties, ascending */

static inline uint64_t capped(uint64_t pays, uint64_t children) { return children >= NONE ? NONE : pays + children; }

static uint16_t *walk_equal(const struct tree *t, const uint64_t *table, int v, int up, int m, uint16_t *out);
static uint16_t *walk_packed(const struct tree *t, const uint64_t *table, int v, int up, int m, uint16_t *out);

static inline __attribute__((always_inline)) uint16_t *walk(const struct tree *t, const uint64_t *table, int v, int up, int m,
                                                            uint16_t *out, enum fill fill)
{
    for (; v && m; v = t->next[v]) {
        int a = t->depth[up], here = min(m, t->size[v]), member = 0;
        int first = t->first[v], next = t->next[v];
        uint64_t base = t->full[v] * t->dist[v], least = entry(t, table, v, a, m, fill);
        uint64_t plain = base - t->cachable[v] * t->dist[up], cached = own_cost(t, v);
        for (; here > 0; here--) {
            uint64_t without = capped(plain, entry(t, table, first, a, here, fill));
            uint64_t with = capped(cached, entry(t, table, first, t->depth[v], here - 1, fill));
            member = with < without;
            if ((member ? with : without) + entry(t, table, next, a, m - here, fill) == least) break;
        }
        if (here && member) {
            *out++ = v;
            out = (fill == PACKED ? walk_packed : walk_equal)(t, table, first, v, here - 1, out);
        } else if (here) {
            out = (fill == PACKED ? walk_packed : walk_equal)(t, table, first, up, here, out);
        }
        m -= here;
    }
    return out;
}

static uint16_t *walk_equal(const struct tree *t, const uint64_t *table, int v, int up, int m, uint16_t *out)
{
    return walk(t, table, v, up, m, out, RUNS);
}

static uint16_t *walk_packed(const struct tree *t, const uint64_t *table, int v, int up, int m, uint16_t *out)
{
    return walk(t, table, v, up, m, out, PACKED);
}

static void make_plan(struct tree *t, uint64_t *scratch, enum fill fill, struct plan *p)
{
    link_rows(t);
    if (fill == PACKED) place_lines(t);
    if (fill == PACKED)
        for (int v = t->n - 1; v > 0; v--) fill_node(t, scratch, v, PACKED);
    else if (fill == RUNS)
        for (int v = t->n - 1; v > 0; v--) fill_node(t, scratch, v, RUNS);
    else
        for (int v = t->n - 1; v > 0; v--) fill_node(t, scratch, v, SPLITS);
    uint64_t best = entry(t, scratch, t->first[0], 0, 0, fill);
    for (int b = 0; b <= t->k; b++) {
        uint64_t exact = entry(t, scratch, t->first[0], 0, b, fill);
        if (b == 0 || exact < best) {
            best = exact;
            uint16_t *end = (fill == PACKED ? walk_packed : walk_equal)(t, scratch, t->first[0], 0, b, p->row[b]);
            memset(end, 0, (p->row[b] + BUDGET - end) * sizeof *end);
        } else {
            memcpy(p->row[b], p->row[b - 1], sizeof p->row[b]);
        }
        p->total[b] = best;
    }
}

/* ---- with a node and without it: the table once with a cache at the node, and once with the node closed */

/* The lines of the row that begins with v, where a cache stands at v: with no caches there is no set. */
static void fill_with(const struct tree *t, uint64_t *table, int v)
{
    int k = t->k, next = t->next[v];
    struct counts c = { .top = min(k, t->size[v]), .later = next ? min(k, t->row[next]) : 0 };
    const uint64_t *under = line(t, table, t->first[v], t->depth[v], RUNS);
    uint64_t node[BUDGET + 1] = { NONE };
    for (int m = 1; m <= c.top; m++)
        node[m] = own_cost(t, v) + under[m - 1];
    for (int a = 0; a < t->depth[v]; a++)
        join_runs(k, c, node, line(t, table, next, a, RUNS), (uint64_t *)line(t, table, v, a, RUNS));
}

/* The least total of at most b caches, one of them at the node `with`; of any where that is 0. */
static uint64_t least_total(struct tree *t, uint64_t *table, int with, int b)
{
    uint64_t best = NONE;
    link_rows(t);
    for (int v = t->n - 1; v > 0; v--)
        if (v == with) fill_with(t, table, v);
        else fill_node(t, table, v, RUNS);
    for (int m = 0; m <= b; m++) {
        uint64_t exact = entry(t, table, t->first[0], 0, m, RUNS);
        if (exact < best) best = exact;
    }
    return best < NONE ? best : UINT64_MAX;
}

static void make_with_without(struct tree *t, uint64_t *scratch, int node, int b, uint64_t totals[2])
{
    int open = t->open[node];
    t->open[node] = 0;
    totals[1] = least_total(t, scratch, 0, b);
    t->open[node] = open;
    totals[0] = least_total(t, scratch, node, b);
}

/* ---- from a target to a budget */

static int least_budget(const struct tree *t, const struct plan *p, uint64_t target)
{
    int b = 0;
    while (b <= t->k && p->total[b] > target)
        b++;
    return b;
}

/* ---- the greedy rule */

static void make_greedy(const struct tree *t, struct greedy *g)
{
    uint64_t reach[NODES], above[NODES], total = 0;
    char taken[NODES] = { 0 };
    int n = t->n, done = 0;
    for (int v = 0; v < n; v++)
        total += t->full[v] * t->dist[v];
    g->total[0] = total;
    memset(g->node, 0, sizeof g->node);
    for (int step = 0; step < t->k; step++) {
        uint64_t most = 0;
        int node = 0;
        if (!done) {
            memcpy(reach, t->cachable, n * sizeof *reach);
            above[0] = 0;
            for (int v = 1; v < n; v++) {
                int p = t->parent[v];
                above[v] = taken[p] ? t->dist[p] : above[p];
            }
            for (int v = n - 1; v > 0; v--) {
                if (taken[v]) continue;
                uint64_t gain = reach[v] * (t->dist[v] - above[v]);
                reach[t->parent[v]] += reach[v];
                if (t->open[v] && gain && gain >= most) most = gain, node = v; /* the smallest number on a tie */
            }
            done = !node;
        }
        taken[node] = 1, g->node[step] = node, total -= most;
        g->total[step + 1] = total;
    }
}

/* ---- the bill, by the definition of cost */

static void make_bill(const struct tree *t, const uint16_t *set, size_t members, struct bill *b)
{
    char in[NODES] = { 0 };
    for (size_t i = 0; i < members; i++)
        in[set[i]] = 1;
    b->total = 0;
    memset(b->load, 0, sizeof b->load);
    for (int v = 0; v < t->n; v++) {
        uint64_t least = t->full[v] * t->dist[v];
        int serving = 0, served = 0;
        for (int u = v; u; u = t->parent[u]) {
            uint64_t cost = (t->full[v] - t->cachable[v]) * t->dist[v] + t->cachable[v] * (t->dist[v] - t->dist[u]);
            if (!in[u]) continue;
            if (cost < least) least = cost;
            if (!serving) serving = u;
        }
        for (int u = v; u; u = t->parent[u]) {
            served |= u == serving;
            b->load[u] += t->full[v] - (served ? t->cachable[v] : 0);
        }
        b->serving[v] = serving;
        b->total += least;
    }
}

/* ---- the ranking of two sets */

/* Which nodes are members, and how many members are at or below each node. */
struct spread { char in[NODES]; int below[NODES]; };

static void spread_out(const struct tree *t, const uint16_t *set, size_t members, struct spread *s)
{
    memset(s->in, 0, t->n * sizeof *s->in);
    memset(s->below, 0, t->n * sizeof *s->below);
    for (size_t i = 0; i < members; i++) {
        s->in[set[i]] = 1;
        for (int u = set[i]; u; u = t->parent[u])
            s->below[u]++;
    }
}

/* Of two sets with equal totals: fewest nodes, then at nodes 1, 2, .. more members at or below, then the set without the node
 * itself. */
static int ties_before(const struct tree *t, const uint16_t *a, size_t a_members, const uint16_t *b, size_t b_members)
{
    static struct spread x, y;
    if (a_members != b_members) return a_members < b_members;
    spread_out(t, a, a_members, &x);
    spread_out(t, b, b_members, &y);
    for (int v = 1; v < t->n; v++) {
        if (x.below[v] != y.below[v]) return x.below[v] > y.below[v];
        if (x.in[v] != y.in[v]) return y.in[v];
    }
    return 0;
}

static int ranks_before(const struct tree *t, const uint16_t *a, size_t a_members, const uint16_t *b, size_t b_members)
{
    static struct bill x, y;
    make_bill(t, a, a_members, &x);
    make_bill(t, b, b_members, &y);
    return x.total != y.total ? x.total < y.total : ties_before(t, a, a_members, b, b_members);
}

/* ---- every set of a few nodes */

static size_t nodes_of(const struct tree *t, unsigned set, uint16_t *out)
{
    size_t count = 0;
    for (int v = 1; v < t->n; v++)
        if (set >> v & 1) out[count++] = v;
    return count;
}

static int all_open(const struct tree *t, unsigned set)
{
    for (int v = 1; v < t->n; v++)
        if ((set >> v & 1) && !t->open[v]) return 0;
    return 1;
}

static void enumerate(const struct tree *t, struct plan *p)
{
    static struct bill b;
    uint16_t nodes[NODES];
    for (int k = 0; k <= t->k; k++) {
        size_t members, best = 0;
        for (unsigned set = 0; set < 1u << t->n; set += 2) {
            if (__builtin_popcount(set) > k || !all_open(t, set)) continue;
            members = nodes_of(t, set, nodes);
            make_bill(t, nodes, members, &b);
            if (set && (b.total > p->total[k] || (b.total == p->total[k] && !ties_before(t, nodes, members, p->row[k], best))))
                continue;
            p->total[k] = b.total, best = members;
            memset(p->row[k], 0, sizeof p->row[k]);
            memcpy(p->row[k], nodes, members * sizeof *nodes);
        }
    }
}

static void enumerate_with_without(const struct tree *t, int node, int b, uint64_t totals[2])
{
    static struct bill bill;
    uint16_t nodes[NODES];
    totals[0] = totals[1] = UINT64_MAX;
    for (unsigned set = 0; set < 1u << t->n; set += 2) {
        if (__builtin_popcount(set) > b || !all_open(t, set)) continue;
        make_bill(t, nodes, nodes_of(t, set, nodes), &bill);
        uint64_t *least = set >> node & 1 ? &totals[0] : &totals[1];
        if (bill.total < *least) *least = bill.total;
    }
}

/* Of the sets within the target: fewest nodes, then the least total, then the first in the order of ties. */
static int enumerate_least_budget(const struct tree *t, uint64_t target, uint16_t row[BUDGET])
{
    static struct bill bill;
    uint16_t nodes[NODES];
    uint64_t total = 0;
    int fewest = t->k + 1;
    memset(row, 0, BUDGET * sizeof *row);
    for (unsigned set = 0; set < 1u << t->n; set += 2) {
        int members = __builtin_popcount(set);
        if (members > min(t->k, fewest) || !all_open(t, set)) continue;
        make_bill(t, nodes, nodes_of(t, set, nodes), &bill);
        if (bill.total > target) continue;
        if (members == fewest && (bill.total > total || (bill.total == total && !ties_before(t, nodes, members, row, members))))
            continue;
        fewest = members, total = bill.total;
        memset(row, 0, BUDGET * sizeof *row);
        memcpy(row, nodes, members * sizeof *nodes);
    }
    return fewest;
}

const struct planner PLANNER = { read_tree, scratch_words, make_plan, make_greedy, make_bill, ranks_before, enumerate,
                                 make_with_without, enumerate_with_without, least_budget, enumerate_least_budget };
