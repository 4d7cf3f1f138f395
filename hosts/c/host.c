/* The program kterc, a host of the proved library: prints the report of each tree file, with -b what each of its nodes is worth at
 * one budget, or with -t the least budget for a target. A refusal gets its rule, its record and a sentence. */
#include "host.h"

#include <ctype.h>
#include <errno.h>
#include <getopt.h>
#include <stdio.h>
#include <stdlib.h>
#include <string.h>

/* What is asked of each file, by option, and the budget or the target of the question. */
struct question {
    enum { REPORT = 0, SITES = 'b', TARGET = 't' } kind;
    uint64_t number;
};

/* Long options without a letter. */
enum { HELP = 256, VERSION };

void *lent(size_t entries, size_t size)
{
    void *memory = calloc(entries ? entries : 1, size);
    if (!memory) {
        fprintf(stderr, "kterc: memory: %s\n", strerror(errno));
        exit(FAILED);
    }
    return memory;
}

void print_name(const struct source *s)
{
    if (s->named) printf("%s:\n", s->name);
}

void print_nodes(const uint16_t *row, size_t k)
{
    for (size_t i = 0; i < k && row[i]; i++)
        printf(" %u", row[i]);
    putchar('\n');
}

/* ---- what is asked */

static void print_help(void)
{
    fputs("usage: kterc [-b BUDGET | -t TARGET] [FILE ...]\n"
          "Says where transparent caches on a routing tree save the most traffic.\n"
          "FILE is a tree file; - or no FILE is standard input.\n"
          "\n"
          "  no option      for each budget: the budget, the least total, the greedy total,\n"
          "                 the nodes of the optimum placement\n"
          "  -b, --budget BUDGET\n"
          "                 for each node: the node, the least total with a cache there,\n"
          "                 the least total without, the second minus the first\n"
          "  -t, --target TARGET\n"
          "                 the least budget whose least total is no larger than TARGET,\n"
          "                 that total, the nodes of the optimum placement; or none, where\n"
          "                 the file's whole budget is not enough\n"
          "      --help     print this text\n"
          "      --version  print the version\n"
          "\n"
          "Totals and TARGET are in thousandths. With several FILEs a line FILE: stands\n"
          "before each answer.\n"
          "Status: 0 for answers, also for none; 1 where a file is refused; 2 where a file\n"
          "cannot be read, output cannot be written, memory is not there, or the usage is\n"
          "wrong. With several FILEs the greatest counts.\n",
          stdout);
}

static _Noreturn void wrong_usage(void)
{
    fputs("Try 'kterc --help' for more information.\n", stderr);
    exit(FAILED);
}

/* A number in decimal digits. `fits` says whether it is below 2^64; the largest number stands for one that is not. */
static int read_number(const char *text, uint64_t *number, int *fits)
{
    char *end;
    errno = 0;
    *number = strtoull(text, &end, 10);
    *fits = errno != ERANGE;
    return isdigit((unsigned char)*text) && !*end;
}

/* A budget that does not fit is above every file's too. */
static void read_question(struct question *q, int kind, const char *text)
{
    int fits;
    if (q->kind) {
        fputs("kterc: only one of -b and -t can be asked, and once\n", stderr);
        wrong_usage();
    }
    if (!read_number(text, &q->number, &fits) || (kind == TARGET && !fits)) {
        fprintf(stderr, "kterc: -%c takes a whole number from 0 on%s, not '%s'\n", kind, kind == TARGET ? ", below 2^64" : "", text);
        wrong_usage();
    }
    q->kind = kind;
}

/* ---- the answers */

static _Noreturn void not_written(void)
{
    fprintf(stderr, "kterc: standard output: %s\n", strerror(errno));
    exit(FAILED);
}

/* Writes what was printed. */
static void write_out(void)
{
    if (fflush(stdout) || ferror(stdout)) not_written();
}

/* The status of the program, once its output is closed: some file systems say only then that they are full. An output that was
 * never open matters only where something was to be written. */
static int ended(int status)
{
    if (fclose(stdout) && errno != EBADF) not_written();
    return status;
}

static uint32_t print_answer(const struct question *q, const struct source *s)
{
    switch (q->kind) {
    case SITES: return print_sites(s, q->number);
    case TARGET: return print_target(s, q->number);
    default: return print_report(s);
    }
}

static int answer_source(const struct question *q, const char *name, int named)
{
    static struct source s;
    s.name = name, s.named = named;
    if (read_source(&s)) return FAILED;
    uint32_t answer = print_answer(q, &s), rule = KTERC_RULE(answer);
    write_out();
    if (!answer) return ANSWERED;
    fprintf(stderr, "kterc: %s: refused %u %u: %s\n", name, rule, KTERC_RECORD(answer), kterc_rule_text(rule));
    return REFUSED;
}

static int answer_sources(const struct question *q, char **names, int count)
{
    int status = ANSWERED;
    for (int i = 0; i < count; i++) {
        int one = answer_source(q, names[i], count > 1);
        if (one > status) status = one;
    }
    return status;
}

/* ---- the command line */

/* Prints the help or the version, and ends the program. */
static _Noreturn void print_about(int option)
{
    if (option == HELP) print_help();
    else printf("kterc %s\n", kterc_version());
    write_out();
    exit(ended(ANSWERED));
}

/* Leaves optind at the first file. */
static void read_options(int argc, char **argv, struct question *q)
{
    static const struct option options[] = {
        { "budget", required_argument, NULL, SITES },
        { "target", required_argument, NULL, TARGET },
        { "help", no_argument, NULL, HELP },
        { "version", no_argument, NULL, VERSION },
        { NULL, 0, NULL, 0 },
    };
    int option;
    while ((option = getopt_long(argc, argv, "b:t:", options, NULL)) != -1)
        switch (option) {
        case SITES: case TARGET: read_question(q, option, optarg); break;
        case HELP: case VERSION: print_about(option);
        default: wrong_usage();
        }
}

int main(int argc, char **argv)
{
    static char name[] = "kterc", *standard_input[] = { "-" };
    struct question q = { REPORT, 0 };
    argv[0] = name; /* getopt's messages begin with it */
    read_options(argc, argv, &q);
    return ended(optind < argc ? answer_sources(&q, argv + optind, argc - optind) : answer_sources(&q, standard_input, 1));
}
