/* The k-TERC planner for hosts in C, on x86-64. After `make install` a program is linked with
 *
 *     cc program.c $(pkg-config --cflags --libs kterc)
 *
 * Library. libkterc.a and libkterc.so are made of libkterc_c.a, the proved calls as `rt lib` writes them of the crate kterc_c_c, and of two
 * functions in plain C that hold text and are not proved: kterc_version and kterc_rule_text. These two are not in libkterc_c.a.
 *
 * Memory. The host owns all of it: the library allocates nothing, keeps no pointer after a call and has no state, so calls on
 * different memory may run at the same time. Each array is a pointer and its length in entries. A pointer is aligned for its
 * type and not NULL, also where the length is 0, and the lent arrays of one call do not overlap each other or the file.
 *
 * File. A tree file as bytes, of any content and length: its version, n nodes and budget k are read from it. A record of
 * version 1 has 10 bytes, the last 2 of them the hit ratio; one of version 2 has 12, the last 4 of them the cachable bytes;
 * one of version 3 has a byte more, 1 where a cache may stand and 0 where not: such a node is closed, and no set has it, but
 * its client and its link count like any other's. In versions 1 and 2 each node is open. No accepted file is longer than
 * KTERC_FILE_BYTES, 13,321.
 *
 * Scratch. Words of 64 bits: 4 * n of them and, for each node v from 1 on, depth(v) * (min(k, r(v)) + 1), where depth(v) is the
 * number of links from v to the server, and r(v) the number of nodes, closed ones too, at or below v and at or below its later
 * siblings. kterc_scratch_words says how many these are for a file, and at most KTERC_SCRATCH_WORDS are asked. Every call that
 * takes scratch asks for as many (rule 13). What they hold before a call does not matter. After an accepted call these words may
 * hold anything; the words beyond them stay.
 *
 * Answers. Node numbers and budgets in arrays are of 16 bits, totals and loads of 64 bits in thousandths, and so is a target.
 * Arrays may be longer than asked (rule 14): entries beyond those written stay.
 *
 * Stack. A call needs KTERC_.._STACK bytes of its thread's stack, whatever the file. They are measured, on x86-64 and with a
 * margin of a third or more, and not proved.
 *
 * Result. 0: accepted, the answers are written. KTERC_NONE, from kterc_target alone: accepted, no budget is enough, and no answer
 * is written. KTERC_FIRST or KTERC_SECOND, from kterc_rank alone: accepted, and that set ranks first. Else the call is refused:
 * KTERC_RULE gives the number of the first broken rule, KTERC_RECORD the record it broke on (0 where no record is at fault), and
 * nothing is changed, neither answers nor scratch. The rules about the file come first, then 12 about a set or 16 about a node and
 * a budget, then 13, then 14.
 */
#ifndef KTERC_H
#define KTERC_H

#include <stddef.h>
#include <stdint.h>

#ifdef __cplusplus
extern "C" {
#endif

/* The version of this library. */
#define KTERC_VERSION "1.0.0"

/* The largest sizes that a tree file can have, its bytes among them, and words of scratch that are enough for every accepted
 * file. */
#define KTERC_NODES 1024
#define KTERC_BUDGET 32
#define KTERC_DEPTH 32
#define KTERC_FILE_BYTES (9 + 13 * KTERC_NODES)
#define KTERC_SCRATCH_WORDS ((KTERC_NODES - 1) * KTERC_DEPTH * (KTERC_BUDGET + 1) + 4 * KTERC_NODES)

/* The stack of each call, in bytes. */
#define KTERC_CHECK_STACK (16 * 1024)
#define KTERC_SCRATCH_WORDS_STACK (28 * 1024)
#define KTERC_BILL_STACK (16 * 1024)
#define KTERC_PLAN_STACK (40 * 1024)
#define KTERC_GREEDY_STACK (28 * 1024)
#define KTERC_REPORT_STACK (40 * 1024)
#define KTERC_WITH_WITHOUT_STACK (40 * 1024)
#define KTERC_TARGET_STACK (40 * 1024)
#define KTERC_RECORD_STACK (16 * 1024)
#define KTERC_RANK_STACK (32 * 1024)

/* Stands in the place of a total where there is none. Every total is below 2^62. */
#define KTERC_NO_TOTAL UINT64_MAX

/* The result of kterc_target where no budget is enough. It is no rule's number, and its record is 0. */
#define KTERC_NONE 255

/* The results of kterc_rank: which set ranks first. They are no rule's numbers, and their record is 0. */
#define KTERC_FIRST 253
#define KTERC_SECOND 254

#define KTERC_RULE(answer) ((answer) % 256)
#define KTERC_RECORD(answer) ((answer) / 256)

/* Of an accepted file, a pointer to uint8_t: its version, its nodes n, its budget k, and the bytes of each of its records. */
#define KTERC_VERSION_OF(file) ((file)[3] * 256u + (file)[4])
#define KTERC_NODES_OF(file) ((size_t)((file)[5] * 256u + (file)[6]))
#define KTERC_BUDGET_OF(file) ((size_t)((file)[7] * 256u + (file)[8]))
#define KTERC_RECORD_BYTES(file) ((size_t)(KTERC_VERSION_OF(file) == 1 ? 10 : KTERC_VERSION_OF(file) == 2 ? 12 : 13))

/* The version of the library that is linked, for example to compare with KTERC_VERSION. Not proved. */
const char *kterc_version(void);

/* A sentence in English that says how a rule is broken, by the rule's number. NULL for a number that no call refuses by. Not
 * proved. */
const char *kterc_rule_text(uint32_t rule);

/* 0, or the number (not the record) of the first broken rule among 1 to 11, from version 2 on with 17 in the place of 11, and in
 * version 3 with 24 as the last rule on each record. */
uint32_t kterc_check(const uint8_t *file, size_t file_length);

/* The words of scratch that rule 13 asks for, 0 if the file is refused. */
size_t kterc_scratch_words(const uint8_t *file, size_t file_length);

/* The bill of a set of nodes, which is strictly ascending, each from 1 to n - 1 and open (rule 12). Asked of the arrays (rule
 * 14): 1 entry of total, n of serving, n of loads. Writes the set's total, the serving node of each node, and the load on the
 * link above each node. */
uint32_t kterc_bill(const uint8_t *file, size_t file_length, const uint16_t *set, size_t set_length, uint64_t *total,
                    size_t total_length, uint16_t *serving, size_t serving_length, uint64_t *loads, size_t loads_length);

/* The plan. Asked of the arrays: k + 1 entries of totals, (k + 1) * k of rows. Total b, counted from 0, is the least total of at
 * most b caches at open nodes; row b, at rows + b * k, has the nodes of the first set that reaches it, ascending, then zeros. Of two
 * such sets the one with fewer nodes comes first; then, node by node from 1 on, the one with more nodes at or below that node,
 * and if equally many the one without that node; the first difference decides. */
uint32_t kterc_plan(const uint8_t *file, size_t file_length, uint64_t *scratch, size_t scratch_length, uint64_t *totals,
                    size_t totals_length, uint16_t *rows, size_t rows_length);

/* The greedy rule, at open nodes. Asked of the arrays: k + 1 entries of totals, k of nodes. Total b is what it reaches in at most
 * b steps; nodes stand in the order taken, then zeros. */
uint32_t kterc_greedy(const uint8_t *file, size_t file_length, uint64_t *scratch, size_t scratch_length, uint64_t *totals,
                      size_t totals_length, uint16_t *nodes, size_t nodes_length);

/* Both together, in the same scratch: the plan's totals and rows, then the greedy rule's totals and nodes. */
uint32_t kterc_report(const uint8_t *file, size_t file_length, uint64_t *scratch, size_t scratch_length, uint64_t *totals,
                      size_t totals_length, uint16_t *rows, size_t rows_length, uint64_t *greedy_totals,
                      size_t greedy_totals_length, uint16_t *greedy_nodes, size_t greedy_nodes_length);

/* With a node or without it, the node from 1 to n - 1 and the budget from 0 to k (rule 16). Asked of the array: 2 entries of
 * totals. The first is the least total of at most `budget` caches at open nodes, one of them at the node, or KTERC_NO_TOTAL where
 * there is no such set: the budget is 0 or the node is closed. The second is the least total of at most `budget` caches at open
 * nodes, none of them at the node. The smaller of the two is the plan's total at that budget. The plan has the node only if the
 * first is no larger than the second, and has it if the first is smaller. */
uint32_t kterc_with_without(const uint8_t *file, size_t file_length, size_t node, size_t budget, uint64_t *scratch,
                            size_t scratch_length, uint64_t *totals, size_t totals_length);

/* From a target to a budget. Asked of the arrays: 1 entry of budget, k of row. Writes the least budget, at most k, whose plan
 * total is no larger than the target, and the plan's row at that budget, which has exactly as many nodes as the budget says,
 * ascending, then zeros. Where every set of at most k open nodes costs more than the target the result is KTERC_NONE, and neither
 * array is written. Whether a budget is enough is asked last: an array too short is refused in both cases. */
uint32_t kterc_target(const uint8_t *file, size_t file_length, uint64_t target, uint64_t *scratch, size_t scratch_length,
                      uint16_t *budget, size_t budget_length, uint16_t *row, size_t row_length);

/* Where the record of a node stands in the file: the number of bytes before it, 9 or more. Its own bytes are KTERC_RECORD_BYTES.
 * 0, where no record stands, if the file is refused or the node is not below n. */
size_t kterc_record(const uint8_t *file, size_t file_length, size_t node);

/* Which of two sets of nodes ranks first: the one with the lower total, and of equal totals the one that comes first in the order
 * that kterc_plan has; of equal sets the first. The result is KTERC_FIRST or KTERC_SECOND, or a refusal: by the rules about the
 * file, then by 12 for the first set, then by 12 for the second. It is never 0. Both sets are only read and may be one array. */
uint32_t kterc_rank(const uint8_t *file, size_t file_length, const uint16_t *first, size_t first_length, const uint16_t *second,
                    size_t second_length);

#ifdef __cplusplus
}
#endif

#endif
