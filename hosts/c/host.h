/* What the parts of the host program share. */
#ifndef HOST_H
#define HOST_H

#include <stddef.h>
#include <stdint.h>

#include "kterc.h"

/* Statuses with which the program ends; of several the greatest. */
enum { ANSWERED = 0, REFUSED = 1, FAILED = 2 };

/* A tree file that was read. One byte more than an accepted file can have is enough: rules 1 to 6 refuse it as they would the
 * whole, since rules 1 to 5 look at the first 9 bytes, and 6 at the length. */
struct source {
    const char *name; /* as it was asked for; - for standard input */
    int named;        /* whether a line with the name stands before the answer */
    size_t length;
    uint8_t file[KTERC_FILE_BYTES + 1];
};

/* Reads the file of the source's name. 0, or -1 after a message where that failed. */
int read_source(struct source *s);

/* Memory for a call, never NULL, also where nothing is asked. The program ends where there is none. */
void *lent(size_t entries, size_t size);

/* The line before the answer, if there is one. */
void print_name(const struct source *s);

/* Prints the nodes of a row of k entries, up to the first 0, and ends the line. */
void print_nodes(const uint16_t *row, size_t k);

/* Each prints its answer and returns 0, or prints nothing and returns the library's refusal. That no budget is enough for a target
 * is no refusal: it has a line. */
uint32_t print_report(const struct source *s);
uint32_t print_sites(const struct source *s, size_t budget);
uint32_t print_target(const struct source *s, uint64_t target);

#endif
