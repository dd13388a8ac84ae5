#include "tables.h"

#include <stdlib.h>

struct list {
    uint32_t codes[1 << 14];
    size_t count;
};

static void add(struct list *l, unsigned from, unsigned event, unsigned to) {
    l->codes[l->count++] = from << 16 | event << 10 | to;
}

static int by_code(const void *a, const void *b) {
    uint32_t x = *(const uint32_t *)a, y = *(const uint32_t *)b;
    return (x > y) - (x < y);
}

static void put(struct table *t, unsigned v) {
    t->bytes[t->len++] = (uint8_t)v;
    t->bytes[t->len++] = (uint8_t)(v >> 8);
}

/* The table of the moves in a list, sorted, each once; from < 1,024 takes 10 bits, event 6, to 10. */
static struct table made(struct list *l, unsigned n, unsigned e) {
    struct table t = {.len = 0};
    size_t m = 0;
    qsort(l->codes, l->count, sizeof *l->codes, by_code);
    for (size_t i = 0; i < l->count; i++)
        if (i == 0 || l->codes[i] != l->codes[i - 1]) l->codes[m++] = l->codes[i];
    put(&t, n);
    put(&t, e);
    put(&t, 0);
    put(&t, (unsigned)m);
    put(&t, 12);
    put(&t, 0);
    for (size_t i = 0; i < m; i++) {
        put(&t, l->codes[i] >> 16);
        put(&t, l->codes[i] >> 10 & 63);
        put(&t, l->codes[i] & 1023);
    }
    return t;
}

struct table ring(unsigned n, unsigned e) {
    return wide_ring(n, e, e);
}

struct table wide_ring(unsigned n, unsigned e, unsigned each) {
    struct list l = {.count = 0};
    for (unsigned i = 0; i < n; i++)
        for (unsigned x = 1; x <= each; x++) add(&l, i, x, (i + 1) % n);
    return made(&l, n, e);
}

struct table lenient(unsigned nodes, unsigned e) {
    struct list l = {.count = 0};
    for (unsigned i = 0; i < nodes; i++) {
        add(&l, i, 0, nodes);
        for (unsigned x = 1; x <= e; x++) add(&l, i, x, (i + x) % nodes);
    }
    return made(&l, nodes + 1, e);
}

struct table full(unsigned n, unsigned e) {
    struct list l = {.count = 0};
    for (unsigned i = 0; i < n; i++)
        for (unsigned x = 1; x <= e; x++) add(&l, i, x, (i + x) % n);
    return made(&l, n, e);
}

static unsigned drawn(uint64_t *seed, unsigned below) {
    *seed ^= *seed << 13;
    *seed ^= *seed >> 7;
    *seed ^= *seed << 17;
    return (unsigned)((*seed >> 33) % below);
}

struct table chance(unsigned n, unsigned e, unsigned m, unsigned quiet, uint64_t seed) {
    struct list l = {.count = 0};
    for (unsigned i = 0; i < m; i++) {
        unsigned from = i < n ? i : drawn(&seed, n), to = drawn(&seed, n);
        int silent = quiet && from != to && drawn(&seed, quiet) == 0;
        add(&l, from, silent ? 0 : 1 + drawn(&seed, e), to);
    }
    return made(&l, n, e);
}

struct table quiet_row(unsigned n, unsigned e) {
    struct list l = {.count = 0};
    for (unsigned i = 0; i + 1 < n; i++) {
        add(&l, i, 0, i + 1);
        add(&l, i, 1 + i % e, 0);
    }
    for (unsigned x = 1; x <= e; x++) add(&l, n - 1, x, 0);
    return made(&l, n, e);
}

struct table guarded_ring(unsigned n) {
    struct list l = {.count = 0};
    for (unsigned i = 0; i < n; i++) {
        add(&l, i, 1, (i + 1) % n);
        if (i + 1 < n) add(&l, i, 2, i);
    }
    return made(&l, n, 2);
}

struct table leaving_ring(unsigned n) {
    struct list l = {.count = 0};
    for (unsigned i = 0; i < n; i++) add(&l, i, 1, (i + 1) % n);
    add(&l, n - 1, 2, n);
    return made(&l, n + 1, 2);
}
