/* Tables for the benchmark, made from numbers alone. */
#ifndef TABLES_H
#define TABLES_H

#include <stddef.h>
#include <stdint.h>

struct table {
    uint8_t bytes[12 + 6 * 4096];
    size_t len;
};

/* A ring of n states: each goes to the next by every one of the events 1 to e. */
struct table ring(unsigned n, unsigned e);

/* A rule of that many nodes: node i goes by event x to node (i + x) modulo nodes; each may also stop, and so refuse anything. */
struct table lenient(unsigned nodes, unsigned e);

/* A rule of that many states, each with every event: state i goes by event x to state (i + x) modulo n. */
struct table full(unsigned n, unsigned e);

/* n states and about m moves drawn by chance, at least one from each state; one move in `quiet` is silent, none where that
 * is 0. */
struct table chance(unsigned n, unsigned e, unsigned m, unsigned quiet, uint64_t seed);

/* n states in a row of silent moves; every state also goes to the first by one event, the last by every event. */
struct table quiet_row(unsigned n, unsigned e);

/* A ring of n states by event 1, of which all but the last can also do 2 and stay. */
struct table guarded_ring(unsigned n);

/* A ring of n states by event 1, of which the last can also do 2, and then nothing. */
struct table leaving_ring(unsigned n);

/* A ring of n states, each with `each` moves by different events to the next. */
struct table wide_ring(unsigned n, unsigned e, unsigned each);

#endif
