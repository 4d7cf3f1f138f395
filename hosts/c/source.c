/* Reading a tree file. */
#include <errno.h>
#include <stdio.h>
#include <string.h>

#include "host.h"

static int failed(const char *name)
{
    fprintf(stderr, "kterc: %s: %s\n", name, strerror(errno));
    return -1;
}

int read_source(struct source *s)
{
    FILE *f = strcmp(s->name, "-") ? fopen(s->name, "rb") : stdin;
    if (!f) return failed(s->name);
    s->length = fread(s->file, 1, sizeof s->file, f);
    int answer = ferror(f) ? failed(s->name) : 0;
    if (f != stdin) fclose(f);
    else clearerr(f);
    return answer;
}
