/* Random tree files of each version, damaged ones, and sets. */
#ifndef TREES_H
#define TREES_H

#include <stddef.h>
#include <stdint.h>

#include "reference.h"

/* All nodes below the server; paths of depth 32; a path, then leaves at depth 32; a spine with teeth; and random, then random and
 * deep. */
enum shape { STAR, PATHS, BROOM, COMB, BUSH, DEEP, SHAPES };

/* Writes the file of a tree of the shape, of n nodes with budget k, and returns its length. Values from all equal to the full
 * range come in turn by the seed, and in version 3 from no node closed to each. */
size_t shaped_tree(uint8_t *file, int version, enum shape shape, int n, int k, uint64_t *seed);

/* The same, with the shape by the seed too. */
size_t random_tree(uint8_t *file, int version, int n, int k, uint64_t *seed);

/* A file is damaged in one to PLACES places. Each adds at most one byte. */
enum { PLACES = 3, DAMAGED_BYTES = FILE_BYTES + PLACES };

/* Damages a file that was written in the version, so that it breaks a rule or not, and returns its length. */
size_t damage(uint8_t *file, int version, size_t length, uint64_t *seed);

/* A random set of open nodes of a tree, ascending; returns how many. */
size_t random_set(uint16_t *set, const struct tree *t, uint64_t *seed);

/* A set near another one, of no more nodes, ascending: equal, or with one or two nodes moved to a node beside them or to any, or
 * left out. Returns how many. */
size_t near_set(uint16_t *near, const uint16_t *set, size_t members, const struct tree *t, uint64_t *seed);

/* Puts a closed node of a tree in its place in a set, and returns 1; or returns 0 where each node is open. */
int add_closed(uint16_t *set, size_t members, const struct tree *t, uint64_t *seed);

#endif
