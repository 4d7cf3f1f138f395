#define _XOPEN_SOURCE 700
#include "stack.h"

#include <stdio.h>
#include <string.h>
#include <ucontext.h>

#include "kterc.h"
#include "lend.h"
#include "reference.h"
#include "trees.h"

/* Trees of each shape in each version, and a stack far larger than any call may need. */
enum { EACH_SHAPE = 12, ROOM = 1 << 20, PAINT = 0xA5 };

/* ---- a call on a painted stack */

static _Alignas(16) unsigned char room[ROOM];

static size_t touched_by(void (*call)(void))
{
    static ucontext_t here, there;
    size_t untouched = 0;
    memset(room, PAINT, ROOM);
    getcontext(&there);
    there.uc_stack.ss_sp = room, there.uc_stack.ss_size = ROOM, there.uc_link = &here;
    makecontext(&there, call, 0);
    swapcontext(&here, &there);
    while (untouched < ROOM && room[untouched] == PAINT)
        untouched++;
    return ROOM - untouched;
}

/* ---- the calls, on the tree, the sets and the node at hand */

static struct {
    uint8_t file[FILE_BYTES];
    size_t length, members, near_members, node;
    uint16_t set[NODES], near[NODES];
    struct tree tree;
    uint32_t answer;
} at;

static struct {
    uint64_t scratch[SCRATCH_WORDS], totals[BUDGET + 1], greedy_totals[BUDGET + 1], loads[NODES];
    uint16_t rows[(BUDGET + 1) * BUDGET], greedy_nodes[BUDGET], serving[NODES], budget;
} memory;

static void check(void) { at.answer = kterc_check(at.file, at.length); }

static void words(void) { at.answer = kterc_scratch_words(at.file, at.length) == 0; }

static void bill(void)
{
    at.answer = kterc_bill(at.file, at.length, at.set, at.members, memory.totals, 1, memory.serving, NODES, memory.loads, NODES);
}

static void plan(void)
{
    at.answer = kterc_plan(at.file, at.length, memory.scratch, SCRATCH_WORDS, memory.totals, BUDGET + 1, memory.rows,
                           (BUDGET + 1) * BUDGET);
}

static void greedy(void)
{
    at.answer = kterc_greedy(at.file, at.length, memory.scratch, SCRATCH_WORDS, memory.greedy_totals, BUDGET + 1,
                             memory.greedy_nodes, BUDGET);
}

static void report(void)
{
    at.answer = kterc_report(at.file, at.length, memory.scratch, SCRATCH_WORDS, memory.totals, BUDGET + 1, memory.rows,
                             (BUDGET + 1) * BUDGET, memory.greedy_totals, BUDGET + 1, memory.greedy_nodes, BUDGET);
}

static void with_without(void)
{
    at.answer = kterc_with_without(at.file, at.length, at.node, BUDGET, memory.scratch, SCRATCH_WORDS, memory.totals, 2);
}

/* The plan's total at k, which the report call has left, needs a large budget. */
static void target(void)
{
    at.answer = kterc_target(at.file, at.length, memory.totals[BUDGET], memory.scratch, SCRATCH_WORDS, &memory.budget, 1,
                             memory.rows, BUDGET);
}

static void record(void) { at.answer = kterc_record(at.file, at.length, at.node) == 0; }

static void rank(void)
{
    uint32_t answer = kterc_rank(at.file, at.length, at.set, at.members, at.near, at.near_members);
    at.answer = answer != KTERC_FIRST && answer != KTERC_SECOND;
}

static struct { const char *name; void (*call)(void); size_t stated, most; } calls[] = {
    { "check", check, KTERC_CHECK_STACK, 0 },
    { "scratch_words", words, KTERC_SCRATCH_WORDS_STACK, 0 },
    { "bill", bill, KTERC_BILL_STACK, 0 },
    { "plan", plan, KTERC_PLAN_STACK, 0 },
    { "greedy", greedy, KTERC_GREEDY_STACK, 0 },
    { "report", report, KTERC_REPORT_STACK, 0 },
    { "with_without", with_without, KTERC_WITH_WITHOUT_STACK, 0 },
    { "target", target, KTERC_TARGET_STACK, 0 },
    { "record", record, KTERC_RECORD_STACK, 0 },
    { "rank", rank, KTERC_RANK_STACK, 0 },
};

enum { CALLS = sizeof calls / sizeof *calls };

static int accepted(int c)
{
    size_t touched = touched_by(calls[c].call);
    if (touched > calls[c].most) calls[c].most = touched;
    if (at.answer) printf("refused on a painted stack: kterc_%s\n", calls[c].name);
    return !at.answer;
}

static int sufficed(int c)
{
    int within = calls[c].most <= calls[c].stated;
    printf("kterc_%s touched at most %zu bytes of stack, %s the %zu stated\n", calls[c].name, calls[c].most,
           within ? "within" : "more than", calls[c].stated);
    return within;
}

int stacks_suffice(void)
{
    uint64_t seed = 20001024;
    int good = 1;
    for (int i = 0; i < VERSIONS * SHAPES * EACH_SHAPE; i++) {
        at.length = shaped_tree(at.file, 1 + i / SHAPES % VERSIONS, i % SHAPES, NODES, BUDGET, &seed);
        planner.read(at.file, at.length, &at.tree);
        at.members = random_set(at.set, &at.tree, &seed);
        at.near_members = near_set(at.near, at.set, at.members, &at.tree, &seed);
        at.node = 1 + noise(&seed) % (NODES - 1);
        for (int c = 0; c < CALLS; c++)
            good &= accepted(c);
    }
    for (int c = 0; c < CALLS; c++)
        good &= sufficed(c);
    return good;
}
