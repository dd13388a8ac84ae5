/* The library's check beside the same check in plain C, in one process: the two take turns, the median of several turns counts,
 * and their answers, traces and workspaces are compared. Time is the process's own, so that a busy machine disturbs little.
 *
 * bench          the table of all cases
 * bench names    the cases, each with its number
 * bench one K S  case K once, by side S (0 the library, 1 plain C), for an instrument that counts instructions */
#include "../include/rhythmoxa.h"
#include "plain.h"
#include "tables.h"

#include <stdio.h>
#include <stdlib.h>
#include <string.h>
#include <time.h>

enum { TURNS = 9, FLOWS = 100 };

typedef void check_fn(const uint8_t *, size_t, const uint8_t *, size_t, uint16_t, uint16_t *, size_t, uint64_t *, size_t,
                      uint8_t *, size_t, uint64_t[8]);

/* A rule, and one flow or more that are checked against it, each by a call of its own. */
struct trial {
    char name[64];
    uint16_t mode;
    struct table rule;
    size_t flows;
    struct table *flow;
};

struct room {
    uint16_t work16[32768];
    uint64_t work64[128];
    uint8_t trace[16384];
    uint64_t answers[FLOWS][8];
};

static struct room rooms[2];
static check_fn *const sides[2] = {rhx_check, plain_check};

static void fail(const char *name, const char *what) {
    fprintf(stderr, "bench: %s: %s\n", name, what);
    exit(1);
}

__attribute__((noinline)) void measured(const struct trial *t, int side) {
    struct room *r = &rooms[side];
    for (size_t i = 0; i < t->flows; i++)
        sides[side](t->rule.bytes, t->rule.len, t->flow[i].bytes, t->flow[i].len, t->mode, r->work16, 32768, r->work64, 128,
                    r->trace, sizeof r->trace, r->answers[i]);
}

static int is_clear(const struct room *r) {
    static const struct room zero;
    return !memcmp(r->work16, zero.work16, sizeof zero.work16) && !memcmp(r->work64, zero.work64, sizeof zero.work64);
}

static void compare(const struct trial *t) {
    for (int side = 0; side < 2; side++) {
        memset(&rooms[side], 0x5a, sizeof rooms[side]);
        measured(t, side);
        if (!is_clear(&rooms[side])) fail(t->name, "a workspace does not read zero");
    }
    if (memcmp(rooms[0].answers, rooms[1].answers, sizeof rooms[0].answers)) fail(t->name, "the answers differ");
    if (memcmp(rooms[0].trace, rooms[1].trace, sizeof rooms[0].trace)) fail(t->name, "the traces differ");
}

static double now(void) {
    struct timespec s;
    clock_gettime(CLOCK_PROCESS_CPUTIME_ID, &s);
    return (double)s.tv_sec * 1e6 + (double)s.tv_nsec / 1e3;
}

static double turn(const struct trial *t, int side, unsigned times) {
    double began = now();
    for (unsigned i = 0; i < times; i++) measured(t, side);
    return (now() - began) / times;
}

static int by_size(const void *a, const void *b) {
    double x = *(const double *)a, y = *(const double *)b;
    return (x > y) - (x < y);
}

/* The median microseconds of both sides; a turn takes some 20 milliseconds. */
static void measure(const struct trial *t, double median[2]) {
    double took[2][TURNS];
    double once = turn(t, 1, 1);
    unsigned times = once > 20000 ? 1 : 1 + (unsigned)(20000 / (once + 1));
    for (int i = 0; i < TURNS; i++)
        for (int side = 0; side < 2; side++) took[side][i] = turn(t, side, times);
    for (int side = 0; side < 2; side++) {
        qsort(took[side], TURNS, sizeof(double), by_size);
        median[side] = took[side][TURNS / 2];
    }
}

/* ---- the cases */

static struct trial trials[32];
static size_t count;

static struct trial *new_trial(const char *name, uint16_t mode, struct table rule, size_t flows) {
    struct trial *t = &trials[count++];
    snprintf(t->name, sizeof t->name, "%s", name);
    t->mode = mode;
    t->rule = rule;
    t->flows = flows;
    t->flow = malloc(flows * sizeof *t->flow);
    if (!t->flow) fail(name, "no memory");
    return t;
}

static void with_flow(const char *name, uint16_t mode, struct table rule, struct table flow) {
    new_trial(name, mode, rule, 1)->flow[0] = flow;
}

static void make_cases(void) {
    for (uint16_t mode = 0; mode < 2; mode++) {
        with_flow("ring of 1,023 states, 16 nodes, 1 event", mode, ring(16, 1), ring(1023, 1));
        with_flow("ring of 1,023 states, 16 nodes, 4 events", mode, ring(16, 4), ring(1023, 4));
        with_flow("1,024 states and 4,090 moves by chance, 16 nodes", mode, lenient(16, 6), chance(1024, 6, 4092, 8, 2026));
        with_flow("silent chain of 1,024 states, 16 nodes, 63 events", mode, lenient(16, 63), quiet_row(1024, 63));
        if (mode == 0)
            with_flow("256 states, 64 nodes, 63 events", mode, full(64, 63), chance(256, 63, 4092, 0, 7));
        else
            with_flow("256 states, 63 nodes, 63 events", mode, lenient(63, 63), chance(256, 63, 4092, 0, 7));
        struct trial *t = new_trial("100 flows of 20 states, one rule, 100 calls", mode, lenient(7, 5), FLOWS);
        for (size_t i = 0; i < FLOWS; i++) t->flow[i] = chance(20, 5, 50, 6, 100 + i);
    }
    with_flow("trace fault of 16,368 events, 1,024 states", 0, guarded_ring(16), leaving_ring(1023));
}

static void make_series(void) {
    char name[64];
    for (unsigned nodes = 1; nodes <= 16; nodes *= 2) {
        snprintf(name, sizeof name, "ring of 511 states, 511 moves, %u pairs", 511 * nodes);
        with_flow(name, 1, ring(nodes, 1), ring(511, 1));
    }
    for (unsigned each = 1; each <= 16; each *= 2) {
        snprintf(name, sizeof name, "ring of 255 states, 4,080 pairs, %u moves", 255 * each);
        with_flow(name, 1, lenient(16, 16), wide_ring(255, 16, each));
    }
}

static void row(const struct trial *t) {
    double median[2];
    compare(t);
    measure(t, median);
    printf("| %s | %u | %.3f | %.3f | %.2f |\n", t->name, t->mode, median[0] / 1e3, median[1] / 1e3, median[0] / median[1]);
    fflush(stdout);
}

int main(int argc, char **argv) {
    make_cases();
    make_series();
    if (argc == 4 && !strcmp(argv[1], "one")) {
        size_t k = (size_t)atoi(argv[2]);
        if (k >= count) fail(argv[2], "no such case");
        measured(&trials[k], atoi(argv[3]) != 0);
        return 0;
    }
    if (argc == 2 && !strcmp(argv[1], "names")) {
        for (size_t i = 0; i < count; i++) printf("%zu %s | %u\n", i, trials[i].name, trials[i].mode);
        return 0;
    }
    printf("| case | mode | library, ms | plain C, ms | ratio |\n|---|---|---|---|---|\n");
    for (size_t i = 0; i < count; i++) row(&trials[i]);
    return 0;
}
