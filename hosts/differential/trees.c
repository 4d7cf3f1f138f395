#include "trees.h"

#include <string.h>

#include "lend.h"
#include "reference.h"

static uint32_t upto(uint32_t most, uint64_t *seed) { return (noise(seed) >> 24) % ((uint64_t)most + 1); }

static void put(uint8_t *at, uint32_t value, int width)
{
    while (width--)
        at[width] = value, value >>= 8;
}

/* ---- shapes: node i hangs below node i - 1 or an ancestor of it */

static int parent_of(enum shape shape, int i, const int *parent, const int *depth, uint64_t *seed)
{
    int u = i - 1, links;
    if (shape == STAR) return 0;
    if (shape == PATHS) return depth[u] < DEPTH ? u : 0;
    if (shape == BROOM) return depth[u] < DEPTH ? u : parent[u];
    if (shape == COMB) links = depth[u] > 1 ? upto(1, seed) * 2 : 0;
    else if (shape == BUSH) links = upto(depth[u], seed);
    else links = upto(3, seed) ? 0 : upto(depth[u], seed);
    while (links-- > 0 || depth[u] == DEPTH)
        u = parent[u];
    return u;
}

/* ---- values: from many ties to the full range */

/* The hit ratio or the cachable bytes: the largest value, and writing it. */
static uint32_t all_cachable(int version, uint32_t flow) { return version == 1 ? HIT : flow; }

static void put_cachable(uint8_t *record, int version, uint32_t value) { put(record + 8, value, version == 1 ? 2 : 4); }

static void put_values(uint8_t *record, int version, int kind, int i, uint64_t *seed)
{
    uint32_t length, flow, part;
    switch (kind) {
    case 0: length = 1, flow = 1, part = all_cachable(version, flow); break;
    case 1: length = upto(1, seed), flow = upto(1, seed), part = all_cachable(version, flow) * upto(1, seed); break;
    case 2: length = upto(3, seed), flow = upto(3, seed), part = all_cachable(version, flow) * upto(2, seed) / 2; break;
    case 3: length = LENGTH, flow = FLOW, part = all_cachable(version, flow); break;
    default: length = upto(LENGTH, seed), flow = upto(FLOW, seed), part = upto(all_cachable(version, flow), seed);
    }
    put(record + 2, i ? length : 0, 2);
    put(record + 4, flow, 4);
    put_cachable(record, version, part);
}

/* In version 3, whether a cache may stand: everywhere, nowhere, at about half of the nodes, at most, at few. */
static int open_by(int kind, uint64_t *seed)
{
    switch (kind) {
    case 0: return 1;
    case 1: return 0;
    case 2: return upto(1, seed);
    case 3: return upto(7, seed) > 0;
    default: return upto(7, seed) == 0;
    }
}

size_t shaped_tree(uint8_t *file, int version, enum shape shape, int n, int k, uint64_t *seed)
{
    int kind = upto(5, seed), closing = version == 3 ? upto(4, seed) : 0, parent[NODES] = { 0 }, depth[NODES] = { 0 };
    memcpy(file, "KTR", 3);
    put(file + 3, version, 2);
    put(file + 5, n, 2);
    put(file + 7, k, 2);
    for (int i = 0; i < n; i++) {
        uint8_t *record = file + HEADER + record_bytes(version) * i;
        if (i) {
            parent[i] = parent_of(shape, i, parent, depth, seed);
            depth[i] = depth[parent[i]] + 1;
        }
        put(record, parent[i], 2);
        put_values(record, version, kind, i, seed);
        if (version == 3) record[12] = open_by(closing, seed);
    }
    return HEADER + record_bytes(version) * (size_t)n;
}

size_t random_tree(uint8_t *file, int version, int n, int k, uint64_t *seed)
{
    enum shape shape = upto(SHAPES - 1, seed);
    return shaped_tree(file, version, shape, n, k, seed);
}

/* ---- damage */

static void damage_record(uint8_t *record, int version, int i, uint64_t *seed)
{
    switch (upto(version == 3 ? 6 : 5, seed)) {
    case 0: put(record, upto(NODES + 10, seed), 2); break;
    case 1: put(record, i - 1, 2); break; /* at depth 33 where node i - 1 is at depth 32 */
    case 2: put(record + 2, LENGTH + upto(1, seed), 2); break;
    case 3: put(record + 4, FLOW + upto(1, seed), 4); break;
    case 4: put_cachable(record, version, all_cachable(version, number(record + 4, 4)) + upto(1, seed)); break;
    case 5: record[upto(record_bytes(version) - 1, seed)] ^= 1 << upto(7, seed); break;
    default: record[12] = upto(1, seed) ? upto(2, seed) : noise(seed);
    }
}

/* The same bytes under a header of any version, with as many nodes as there are whole records of it. */
static size_t relabel(uint8_t *file, size_t length, uint64_t *seed)
{
    int version = 1 + upto(VERSIONS - 1, seed);
    size_t records = (length - HEADER) / record_bytes(version);
    put(file + 3, version, 2);
    put(file + 5, records, 2);
    return HEADER + record_bytes(version) * records;
}

size_t damage(uint8_t *file, int version, size_t length, uint64_t *seed)
{
    for (int places = 1 + upto(PLACES - 1, seed); places > 0; places--) {
        size_t records = length > HEADER ? (length - HEADER) / record_bytes(version) : 0;
        int kind = upto(15, seed);
        if (kind == 0) file[length++] = noise(seed);
        else if (kind == 1 && length) length -= 1 + upto(length <= RECORD_3 ? length - 1 : RECORD_3, seed);
        else if (kind == 2 && length > HEADER) length = HEADER - upto(1, seed);
        else if (kind == 3 && length >= HEADER) put(file + 3, upto(VERSIONS + 1, seed), 2);
        else if (kind == 4 && length >= HEADER) put(file + 5, upto(NODES + 1, seed), 2);
        else if (kind == 5 && length >= HEADER) put(file + 7, BUDGET + upto(1, seed), 2);
        else if (kind == 6 && length) file[upto(length < HEADER ? length - 1 : HEADER - 1, seed)] = noise(seed);
        else if (kind == 7 && length >= HEADER) length = relabel(file, length, seed);
        else if (records) {
            int i = upto(records - 1, seed);
            damage_record(file + HEADER + record_bytes(version) * i, version, i, seed);
        }
    }
    return length;
}

/* ---- sets */

size_t random_set(uint16_t *set, const struct tree *t, uint64_t *seed)
{
    size_t members = 0;
    uint32_t rare = 1 + upto(40, seed);
    for (int v = 1; v < t->n; v++)
        if (upto(rare, seed) == 0 && t->open[v]) set[members++] = v;
    return members;
}

/* Where a node of a set moves to: its parent, the node before or after it, or any; 0 for nowhere. */
static int moved(int v, const struct tree *t, uint64_t *seed)
{
    int to;
    switch (upto(3, seed)) {
    case 0: to = t->parent[v]; break;
    case 1: to = v - 1; break;
    case 2: to = v + 1 < t->n ? v + 1 : 0; break;
    default: to = upto(t->n - 1, seed);
    }
    return t->open[to] ? to : 0;
}

size_t near_set(uint16_t *near, const uint16_t *set, size_t members, const struct tree *t, uint64_t *seed)
{
    char in[NODES] = { 0 };
    size_t count = 0;
    for (size_t i = 0; i < members; i++)
        in[set[i]] = 1;
    for (int moves = upto(2, seed); members && moves > 0; moves--) {
        int v = set[upto(members - 1, seed)];
        if (in[v]) in[v] = 0, in[moved(v, t, seed)] = 1;
    }
    for (int v = 1; v < t->n; v++)
        if (in[v]) near[count++] = v;
    return count;
}

int add_closed(uint16_t *set, size_t members, const struct tree *t, uint64_t *seed)
{
    int v = upto(t->n - 1, seed), looked = 0;
    while (v == 0 || t->open[v]) {
        if (looked++ == t->n) return 0;
        v = (v + 1) % t->n;
    }
    for (; members && set[members - 1] > v; members--)
        set[members] = set[members - 1];
    set[members] = v;
    return 1;
}
