/* The proved library beside the reference in C, on the same trees in one process, the calls taking turns. Both read and check the
 * file in every call. With -s each way of the reference has a scratch of its own, as the library has; else they share one. */
#define _POSIX_C_SOURCE 200809L
#include <stdio.h>
#include <stdlib.h>
#include <string.h>
#include <time.h>

#include "kterc.h"
#include "reference.h"

enum { ROUNDS = 100, CALLS = 3, FILLS = 3, RUNNERS = 1 + 2 * FILLS };

static const char *const calls[CALLS] = { "report", "plan", "greedy" };

static uint8_t file[FILE_BYTES];
static size_t length;
static uint64_t *scratches[RUNNERS];
static uint64_t totals[BUDGET + 1], greedy_totals[BUDGET + 1];
static uint16_t rows[(BUDGET + 1) * BUDGET], greedy_nodes[BUDGET];
static struct tree tree;
static struct plan plan;
static struct greedy greedy;

static void proved(int call)
{
    uint32_t answer =
        call == 0 ? kterc_report(file, length, scratches[0], FILL_WORDS, totals, BUDGET + 1, rows, (BUDGET + 1) * BUDGET,
                                 greedy_totals, BUDGET + 1, greedy_nodes, BUDGET)
        : call == 1 ? kterc_plan(file, length, scratches[0], FILL_WORDS, totals, BUDGET + 1, rows, (BUDGET + 1) * BUDGET)
                    : kterc_greedy(file, length, scratches[0], FILL_WORDS, greedy_totals, BUDGET + 1, greedy_nodes, BUDGET);
    if (answer) {
        printf("refused %u\n", answer);
        exit(1);
    }
}

static void reference(int call, const struct planner *c, uint64_t *scratch, enum fill fill)
{
    c->read(file, length, &tree);
    if (call != 2) c->plan(&tree, scratch, fill, &plan);
    if (call != 1) c->greedy(&tree, &greedy);
}

/* The proved library, then the reference at two levels with three ways to fill the table. */
static void run(int call, int runner)
{
    static const enum fill fills[FILLS] = { SPLITS, RUNS, PACKED };
    if (runner == 0) proved(call);
    else reference(call, runner <= FILLS ? &planner_o2 : &planner_o3, scratches[runner], fills[(runner - 1) % FILLS]);
}

static double now(void)
{
    struct timespec t;
    clock_gettime(CLOCK_MONOTONIC, &t);
    return t.tv_sec * 1e3 + t.tv_nsec * 1e-6;
}

/* The nodes of all rows, as the reference keeps them. */
static int same_rows(void)
{
    for (int b = 0; b <= tree.k; b++)
        if (memcmp(rows + b * tree.k, plan.row[b], tree.k * sizeof *rows)) return 0;
    return 1;
}

static void same_answers(const char *name)
{
    proved(0);
    for (int runner = 1; runner < RUNNERS; runner++) {
        run(0, runner);
        if (!memcmp(totals, plan.total, (tree.k + 1) * sizeof *totals) && same_rows()
            && !memcmp(greedy_totals, greedy.total, (tree.k + 1) * sizeof *totals)) continue;
        printf("%s: the answers differ\n", name);
        exit(1);
    }
}

/* Milliseconds of each call, runner and round, sorted when all are run: the best stands first. */
static double times[CALLS][RUNNERS][ROUNDS];

static int by_time(const void *a, const void *b)
{
    double x = *(const double *)a, y = *(const double *)b;
    return (x > y) - (x < y);
}

static void measure(void)
{
    for (int round = 0; round < ROUNDS; round++)
        for (int call = 0; call < CALLS; call++)
            for (int runner = 0; runner < RUNNERS; runner++) {
                double start = now();
                run(call, runner);
                times[call][runner][round] = now() - start;
            }
    for (int i = 0; i < CALLS * RUNNERS; i++)
        qsort(times[i / RUNNERS][i % RUNNERS], ROUNDS, sizeof(double), by_time);
}

static double lesser(double a, double b) { return a < b ? a : b; }

/* The ratios at one place of the sorted times: to the faster of the fills with equal room, to the packed one, and to the fastest
 * of all at -O3. */
static void print_ratios(double t[RUNNERS][ROUNDS], int place)
{
    double proved = t[0][place], best_o3 = lesser(lesser(t[4][place], t[5][place]), t[6][place]);
    printf(" %8.2f %8.2f %8.2f", proved / lesser(t[1][place], t[2][place]), proved / t[3][place], proved / best_o3);
}

static void print_tree(const char *name)
{
    const char *base = strrchr(name, '/') ? strrchr(name, '/') + 1 : name;
    for (int call = 0; call < CALLS; call++) {
        printf("%-10.*s %-7s", (int)strcspn(base, "."), base, calls[call]);
        for (int runner = 0; runner < RUNNERS; runner++)
            printf(" %8.3f", times[call][runner][0]);
        print_ratios(times[call], 0);
        print_ratios(times[call], ROUNDS / 2);
        putchar('\n');
    }
}

static void read_tree(const char *name)
{
    FILE *f = fopen(name, "rb");
    if (!f || !(length = fread(file, 1, sizeof file, f))) {
        perror(name);
        exit(2);
    }
    fclose(f);
}

static void print_heads(void)
{
    static const char *const heads[3][1 + 1 + RUNNERS + 6] = {
        { "", "", "", "C -O2", "C -O2", "C -O2", "C -O3", "C -O3", "C -O3", "ratio to", "ratio to", "ratio to", "medians:", "", "" },
        { "", "", "", "equal", "equal", "", "equal", "equal", "", "-O2", "-O2", "best", "-O2", "-O2", "best" },
        { "tree", "call", "proved", "splits", "runs", "packed", "splits", "runs", "packed", "equal", "packed", "-O3", "equal", "packed",
          "-O3" },
    };
    for (int line = 0; line < 3; line++) {
        printf("%-10s %-7s", heads[line][0], heads[line][1]);
        for (int i = 2; i < 2 + RUNNERS + 6; i++)
            printf(" %8s", heads[line][i]);
        putchar('\n');
    }
}

static uint64_t *filled_scratch(void)
{
    uint64_t *words = malloc(FILL_WORDS * sizeof *words);
    if (!words) {
        perror("memory");
        exit(2);
    }
    return memset(words, 0x5A, FILL_WORDS * sizeof *words);
}

int main(int argc, char **argv)
{
    int apart = argc > 1 && !strcmp(argv[1], "-s");
    for (int runner = 0; runner < RUNNERS; runner++)
        scratches[runner] = runner < 2 || apart ? filled_scratch() : scratches[1];
    printf("Milliseconds, best of %d rounds. The scratch was filled once before and is not cleared between calls.\n", ROUNDS);
    printf("The ways of the planner in C %s.\n", apart ? "have a scratch each" : "share one scratch");
    print_heads();
    for (int i = 1 + apart; i < argc; i++) {
        read_tree(argv[i]);
        same_answers(argv[i]);
        measure();
        print_tree(argv[i]);
    }
    return 0;
}
