/* Memory lent to a call with guard words around it: filled before, compared after. */
#ifndef LEND_H
#define LEND_H

#include <stddef.h>
#include <stdint.h>

struct lent {
    unsigned char *before, *memory; /* what was lent, and a copy of it as it was */
    size_t bytes;                   /* without the guards */
};

/* Room for `entries` of `size` bytes, filled with noise, the guards too. */
struct lent lend(size_t entries, size_t size, uint64_t *seed);

/* The same, filled with the entries at `from`. */
struct lent lend_copy(const void *from, size_t entries, size_t size, uint64_t *seed);

/* Everything but the first `written` bytes is as it was, the guards included. */
int kept(const struct lent *l, size_t written);

void give_back(struct lent *l);

uint64_t noise(uint64_t *seed);

#endif
