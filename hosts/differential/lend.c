#include "lend.h"

#include <stdio.h>
#include <stdlib.h>
#include <string.h>

enum { GUARD = 64 };

uint64_t noise(uint64_t *seed)
{
    *seed ^= *seed << 13;
    *seed ^= *seed >> 7;
    return *seed ^= *seed << 17;
}

struct lent lend(size_t entries, size_t size, uint64_t *seed)
{
    struct lent l = { .bytes = entries * size };
    size_t all = GUARD + l.bytes + GUARD;
    unsigned char *base = malloc(all);
    l.before = malloc(all);
    if (!base || !l.before) {
        perror("memory");
        exit(2);
    }
    for (size_t i = 0; i < all; i += sizeof(uint64_t)) {
        uint64_t word = noise(seed);
        memcpy(base + i, &word, all - i < sizeof word ? all - i : sizeof word);
    }
    memcpy(l.before, base, all);
    l.memory = base + GUARD;
    return l;
}

struct lent lend_copy(const void *from, size_t entries, size_t size, uint64_t *seed)
{
    struct lent l = lend(entries, size, seed);
    memcpy(l.memory, from, l.bytes);
    memcpy(l.before + GUARD, from, l.bytes);
    return l;
}

int kept(const struct lent *l, size_t written)
{
    const unsigned char *base = l->memory - GUARD;
    size_t from = GUARD + written, all = GUARD + l->bytes + GUARD;
    return !memcmp(base, l->before, GUARD) && !memcmp(base + from, l->before + from, all - from);
}

void give_back(struct lent *l)
{
    free(l->memory - GUARD);
    free(l->before);
}
