/* The order's trial cases 1 to 13 and each refusal 1 to 19, through the archive. Every buffer that is lent stands between guard
 * bytes and holds junk before; after each call the guards stand, the tables are as they were, both workspaces are zero, what is
 * not written is as it was, and all 8 numbers of the answer are compared. Prints 'N passed, M failed'. */
#include "../include/rhythmoxa.h"

#include <stdio.h>
#include <stdlib.h>
#include <string.h>

enum { GUARD = 64, GUARD_BYTE = 0xc3, JUNK_BYTE = 0x5a };

static unsigned passed, failed;
static const char *part = "";

static void expect(int holds, const char *what, int line) {
    if (holds) {
        passed++;
        return;
    }
    failed++;
    printf("test.c:%d: %s: %s\n", line, part, what);
}

/* ---- lent memory */

struct lent {
    uint8_t *room;
    size_t bytes;
};

static struct lent lend(size_t bytes) {
    struct lent l = {malloc(bytes + 2 * GUARD), bytes};
    if (!l.room) exit(2);
    memset(l.room, GUARD_BYTE, bytes + 2 * GUARD);
    memset(l.room + GUARD, JUNK_BYTE, bytes);
    return l;
}

static void *inside(struct lent l) {
    return l.room + GUARD;
}

/* Whether the bytes [from, to) of what is lent are all this one. */
static int all(struct lent l, size_t from, size_t to, uint8_t byte) {
    for (size_t i = from; i < to; i++)
        if (l.room[GUARD + i] != byte) return 0;
    return 1;
}

static int guarded(struct lent l) {
    for (size_t i = 0; i < GUARD; i++)
        if (l.room[i] != GUARD_BYTE || l.room[GUARD + l.bytes + i] != GUARD_BYTE) return 0;
    return 1;
}

static void back(struct lent l, int line) {
    expect(guarded(l), "a guard byte has changed", line);
    free(l.room);
}

/* ---- tables */

struct table {
    uint8_t bytes[RHX_TABLE_BYTES + RHX_MOVE_BYTES];
    size_t len;
};

static void put(struct table *t, unsigned v) {
    t->bytes[t->len++] = (uint8_t)v;
    t->bytes[t->len++] = (uint8_t)(v >> 8);
}

static void set16(struct table *t, size_t at, unsigned v) {
    t->bytes[at] = (uint8_t)v;
    t->bytes[at + 1] = (uint8_t)(v >> 8);
}

static unsigned get16(const uint8_t *t, size_t at) {
    return t[at] | (unsigned)t[at + 1] << 8;
}

static void begin(struct table *t, unsigned n, unsigned e) {
    const unsigned header[6] = {n, e, 0, 0, 12, 0};
    t->len = 0;
    for (int i = 0; i < 6; i++) put(t, header[i]);
}

/* Moves are added in their order. */
static void add(struct table *t, unsigned from, unsigned event, unsigned to) {
    put(t, from);
    put(t, event);
    put(t, to);
    set16(t, 6, get16(t->bytes, 6) + 1);
}

static void ring(struct table *t, unsigned n, unsigned e) {
    begin(t, n, e);
    for (unsigned i = 0; i < n; i++) add(t, i, 1, (i + 1) % n);
}

static struct table R, STOP, DIV, CHOICE;

static void make_tables(void) {
    begin(&R, 3, 3);
    for (unsigned i = 0; i < 3; i++) add(&R, i, i + 1, (i + 1) % 3);
    begin(&STOP, 1, 3);
    begin(&DIV, 2, 3);
    add(&DIV, 0, 0, 1);
    add(&DIV, 1, 0, 0);
    begin(&CHOICE, 4, 3);
    add(&CHOICE, 0, 0, 1);
    add(&CHOICE, 0, 0, 2);
    add(&CHOICE, 1, 1, 3);
    add(&CHOICE, 2, 2, 3);
}

/* ---- answers */

struct answer {
    uint64_t numbers[RHX_ANSWER_NUMBERS];
};

static struct answer of(uint64_t kind, uint64_t a, uint64_t b, uint64_t c, uint64_t d) {
    return (struct answer){{kind, 0, 0, a, b, c, d, 0}};
}

static struct answer refused(uint64_t whose, uint64_t number) {
    return (struct answer){{RHX_REFUSED, whose, number, 0, 0, 0, 0, 0}};
}

static struct answer passes(uint64_t nodes, uint64_t pairs) {
    return of(RHX_PASSES, nodes, pairs, 0, 0);
}

static struct answer wrote(uint64_t length) {
    return of(RHX_DONE, length, 0, 0, 0);
}

static void expect_answer(struct lent given, struct answer wanted, int line) {
    struct answer got;
    memcpy(&got, inside(given), sizeof got);
    for (int i = 0; i < RHX_ANSWER_NUMBERS; i++) {
        char what[96];
        snprintf(what, sizeof what, "answer[%d] is %llu, not %llu", i, (unsigned long long)got.numbers[i],
                 (unsigned long long)wanted.numbers[i]);
        expect(got.numbers[i] == wanted.numbers[i], what, line);
    }
    back(given, line);
}

/* A copy of a table that ends where the table does, so that a byte past it is nobody's. */
static struct lent copy(const struct table *t) {
    struct lent l = lend(t->len);
    memcpy(inside(l), t->bytes, t->len);
    return l;
}

static void same(struct lent l, const struct table *t, int line) {
    expect(!memcmp(inside(l), t->bytes, t->len), "a table has changed", line);
    back(l, line);
}

/* ---- checks */

/* The lengths that a check or a watchdog is lent, in elements; the last is that of the trace or of the result. */
struct room {
    size_t work16, work64, last;
};

static const struct room ENOUGH = {RHX_WORK16_NUMBERS, RHX_WORK64_NUMBERS, 8};

enum { SHORT_FORM = -1 };

/* `trace` is what the call is to write. */
static void check(struct room room, const struct table *rule, const struct table *flow, int mode, struct answer wanted,
                  const uint8_t *trace, size_t length, int line) {
    struct lent r = copy(rule), f = copy(flow), w16 = lend(2 * room.work16), w64 = lend(8 * room.work64), t = lend(room.last),
                a = lend(sizeof wanted);
    if (mode == SHORT_FORM)
        rhx_check_short(inside(r), rule->len, inside(f), flow->len, inside(w16), room.work16, inside(w64), room.work64, inside(t),
                        room.last, inside(a));
    else
        rhx_check(inside(r), rule->len, inside(f), flow->len, (uint16_t)mode, inside(w16), room.work16, inside(w64), room.work64,
                  inside(t), room.last, inside(a));
    expect(all(w16, 0, w16.bytes, 0) && all(w64, 0, w64.bytes, 0), "a workspace is not zero", line);
    expect(!memcmp(inside(t), trace, length), "the trace is another", line);
    expect(all(t, length, t.bytes, JUNK_BYTE), "the trace buffer has changed past the trace", line);
    expect_answer(a, wanted, line);
    same(r, rule, line);
    same(f, flow, line);
    back(w16, line);
    back(w64, line);
    back(t, line);
}

/* A trace is given as a string of its events. */
#define CHECK_IN(room, rule, flow, mode, answer, trace)                                                                \
    check(room, rule, flow, mode, answer, (const uint8_t *)trace, sizeof trace - 1, __LINE__)
#define CHECK(rule, flow, mode, answer, trace) CHECK_IN(ENOUGH, rule, flow, mode, answer, trace)
#define BOTH(rule, flow, answer, trace)                                                                                \
    do {                                                                                                               \
        CHECK(rule, flow, SHORT_FORM, answer, trace);                                                                  \
        CHECK(rule, flow, RHX_TRACES, answer, trace);                                                                  \
        CHECK(rule, flow, RHX_FAILURES, answer, trace);                                                                \
    } while (0)

static void cases_1_to_6(void) {
    struct table skips = R, once;
    set16(&skips, 6, 4); /* R with 1 by 3 to 0 added */
    skips.len = 24;
    put(&skips, 1);
    put(&skips, 3);
    put(&skips, 0);
    memcpy(skips.bytes + 30, R.bytes + 24, 6);
    skips.len = 36;
    begin(&once, 2, 3);
    add(&once, 0, 1, 1);
    part = "case 1";
    BOTH(&R, &R, passes(3, 3), "");
    part = "case 2";
    BOTH(&R, &skips, of(RHX_TRACE_FAULT, 2, 0, 0, 0), "\1\3");
    part = "case 3";
    CHECK(&R, &once, RHX_TRACES, passes(3, 2), "");
    CHECK(&R, &once, RHX_FAILURES, of(RHX_REFUSAL_FAULT, 1, 0, 0, 0), "\1");
    part = "case 4";
    CHECK(&R, &STOP, RHX_TRACES, passes(3, 1), "");
    CHECK(&R, &STOP, RHX_FAILURES, of(RHX_REFUSAL_FAULT, 0, 0, 0, 0), "");
    part = "case 5";
    BOTH(&R, &DIV, passes(3, 2), "");
    part = "case 6";
    CHECK(&DIV, &STOP, RHX_TRACES, passes(1, 1), "");
    CHECK(&DIV, &STOP, RHX_FAILURES, of(RHX_REFUSAL_FAULT, 0, 0, 0, 0), "");
}

static void cases_7_to_9(void) {
    struct table both, first, either;
    begin(&both, 2, 3);
    add(&both, 0, 1, 1);
    add(&both, 0, 2, 1);
    begin(&first, 2, 3);
    add(&first, 0, 1, 1);
    begin(&either, 2, 3);
    add(&either, 0, 2, 1);
    add(&either, 0, 3, 1);
    part = "case 7";
    BOTH(&CHOICE, &both, passes(2, 2), "");
    part = "case 8";
    BOTH(&CHOICE, &first, passes(2, 2), "");
    part = "case 9";
    BOTH(&STOP, &either, of(RHX_TRACE_FAULT, 1, 0, 0, 0), "\2");
    part = "least offers"; /* both 1 and 2 must be offered: one state of the flow stops with 2 alone, one with 1 alone */
    struct table stops;
    begin(&stops, 3, 3);
    add(&stops, 0, 0, 1);
    add(&stops, 0, 0, 2);
    add(&stops, 1, 2, 0);
    add(&stops, 2, 1, 0);
    CHECK(&both, &stops, RHX_TRACES, of(RHX_TRACE_FAULT, 2, 0, 0, 0), "\1\1");
    CHECK(&both, &stops, RHX_FAILURES, of(RHX_REFUSAL_FAULT, 0, 1 << 1, 0, 0), "");
}

/* ---- builders */

static const uint64_t MARK_BURN_RELEASE = 1 << 1 | 1 << 2 | 1 << 3;

/* What a builder wrote: the table, and then the bytes that were there. */
static void expect_result(struct lent out, const struct table *wanted, int line) {
    expect(!memcmp(inside(out), wanted->bytes, wanted->len), "the table written is another", line);
    expect(all(out, wanted->len, out.bytes, JUNK_BYTE), "the result buffer has changed past the table", line);
    back(out, line);
}

static void join(const struct table *first, const struct table *second, uint64_t set, size_t room, struct answer wanted,
                 const struct table *table, int line) {
    struct lent f = copy(first), s = copy(second), out = lend(room), a = lend(sizeof wanted);
    rhx_join(inside(f), first->len, inside(s), second->len, set, inside(out), room, inside(a));
    expect_answer(a, wanted, line);
    expect_result(out, table, line);
    same(f, first, line);
    same(s, second, line);
}

static void watchdog(struct room room, const struct table *rule, struct answer wanted, const struct table *table, int line) {
    struct lent r = copy(rule), w16 = lend(2 * room.work16), w64 = lend(8 * room.work64), out = lend(room.last),
                a = lend(sizeof wanted);
    rhx_watchdog(inside(r), rule->len, inside(w16), room.work16, inside(w64), room.work64, inside(out), room.last, inside(a));
    expect(all(w16, 0, w16.bytes, 0) && all(w64, 0, w64.bytes, 0), "a workspace is not zero", line);
    expect_answer(a, wanted, line);
    expect_result(out, table, line);
    same(r, rule, line);
    back(w16, line);
    back(w64, line);
}

static const struct table NOTHING = {.len = 0};

#define JOIN(...) join(__VA_ARGS__, __LINE__)
#define WATCHDOG(...) watchdog(__VA_ARGS__, __LINE__)

static struct room for_result(size_t bytes) {
    return (struct room){RHX_WORK16_NUMBERS, RHX_WORK64_NUMBERS, bytes};
}

static void cases_10_to_12(void) {
    struct table round, loop, dog, least;
    part = "case 10";
    begin(&round, 9, 3);
    add(&round, 0, 1, 4);
    add(&round, 4, 2, 8);
    add(&round, 8, 3, 0);
    JOIN(&R, &R, MARK_BURN_RELEASE, 40, wrote(30), &round);
    JOIN(&R, &R, MARK_BURN_RELEASE, 30, wrote(30), &round);
    JOIN(&R, &R, MARK_BURN_RELEASE, 29, refused(RHX_CALL, 18), &NOTHING);
    part = "case 11";
    begin(&loop, 1, 1);
    add(&loop, 0, 1, 0);
    JOIN(&loop, &loop, 0, 18, wrote(18), &loop);
    part = "case 12";
    begin(&dog, 4, 4);
    for (unsigned i = 0; i < 3; i++)
        for (unsigned e = 1; e <= 3; e++) add(&dog, i, e, e == i + 1 ? e % 3 : 3);
    add(&dog, 3, 4, 3);
    WATCHDOG(for_result(80), &R, wrote(72), &dog);
    WATCHDOG(for_result(72), &R, wrote(72), &dog);
    WATCHDOG(for_result(71), &R, refused(RHX_CALL, 18), &NOTHING);
    part = "a watchdog with no events";
    begin(&loop, 1, 0);
    begin(&least, 2, 1);
    add(&least, 1, 1, 1);
    WATCHDOG(for_result(18), &loop, wrote(18), &least);
}

/* ---- case 13, and the longest traces */

/* A ring of 16 nodes, where all but the last can also do 2, against a ring of 1,023 states whose last can do 2: the fault shows
 * at the last of the 16,368 pairs. */
static void long_trace(void) {
    static uint8_t trace[16368];
    struct table rule, flow;
    struct room room = ENOUGH;
    part = "a trace of 16,368 events";
    begin(&rule, 16, 2);
    for (unsigned i = 0; i < 16; i++) {
        add(&rule, i, 1, (i + 1) % 16);
        if (i < 15) add(&rule, i, 2, i);
    }
    begin(&flow, 1024, 2);
    for (unsigned i = 0; i < 1023; i++) add(&flow, i, 1, (i + 1) % 1023);
    add(&flow, 1022, 2, 1023);
    memset(trace, 1, sizeof trace);
    trace[sizeof trace - 1] = 2;
    room.last = sizeof trace;
    check(room, &rule, &flow, RHX_TRACES, of(RHX_TRACE_FAULT, sizeof trace, 0, 0, 0), trace, sizeof trace, __LINE__);
    room.last--;
    CHECK_IN(room, &rule, &flow, RHX_TRACES, refused(RHX_CALL, 14), "");
}

static void case_13(void) {
    struct table rule, flow;
    struct room room = ENOUGH;
    part = "case 13";
    ring(&flow, 1024, 1);
    ring(&rule, 16, 1);
    CHECK(&rule, &flow, RHX_TRACES, passes(16, 1024), "");
    ring(&rule, 17, 1);
    CHECK(&rule, &flow, RHX_TRACES, refused(RHX_CALL, 13), "");
    begin(&rule, 5, 2); /* 1 1 1 1 leads on; after it the flow does 2 */
    for (unsigned i = 0; i < 4; i++) add(&rule, i, 1, i + 1);
    begin(&flow, 6, 2);
    for (unsigned i = 0; i < 4; i++) add(&flow, i, 1, i + 1);
    add(&flow, 4, 2, 5);
    room.last = 5;
    CHECK_IN(room, &rule, &flow, RHX_TRACES, of(RHX_TRACE_FAULT, 5, 0, 0, 0), "\1\1\1\1\2");
    room.last = 4;
    CHECK_IN(room, &rule, &flow, RHX_TRACES, refused(RHX_CALL, 14), "");
    room.last = 0;
    CHECK_IN(room, &R, &STOP, RHX_FAILURES, of(RHX_REFUSAL_FAULT, 0, 0, 0, 0), "");
}

/* ---- reader, writer, the moves of one state */

static void read_table(const struct table *t, size_t room, struct answer wanted, const uint16_t *moves, size_t count, int line) {
    struct lent table = copy(t), list = lend(2 * room), a = lend(sizeof wanted);
    rhx_read(inside(table), t->len, inside(list), room, inside(a));
    expect_answer(a, wanted, line);
    expect(!memcmp(inside(list), moves, 2 * count), "the list read is another", line);
    expect(all(list, 2 * count, list.bytes, JUNK_BYTE), "the list has changed past the moves", line);
    back(list, line);
    same(table, t, line);
}

static void write_table(uint16_t n, uint16_t e, uint16_t start, const uint16_t *moves, size_t count, size_t room,
                        struct answer wanted, const struct table *table, int line) {
    struct lent list = lend(2 * count), out = lend(room), a = lend(sizeof wanted);
    memcpy(inside(list), moves, 2 * count);
    rhx_write(n, e, start, inside(list), count, inside(out), room, inside(a));
    expect_answer(a, wanted, line);
    expect_result(out, table, line);
    expect(!memcmp(inside(list), moves, 2 * count), "the list has changed", line);
    back(list, line);
}

static void moves_of(const struct table *t, uint16_t state, uint64_t offset, uint64_t size, int line) {
    struct lent table = copy(t), a = lend(sizeof(struct answer));
    rhx_moves_of(inside(table), t->len, state, inside(a));
    expect_answer(a, of(RHX_DONE, offset, size, 0, 0), line);
    same(table, t, line);
}

#define READ(...) read_table(__VA_ARGS__, __LINE__)
#define WRITE(...) write_table(__VA_ARGS__, __LINE__)
#define MOVES_OF(...) moves_of(__VA_ARGS__, __LINE__)

static const uint16_t ROUND[] = {0, 1, 1, 1, 2, 2, 2, 3, 0};

static void reader_and_writer(void) {
    static const uint16_t bad[] = {0, 1, 9};
    part = "read";
    READ(&R, 12, of(RHX_DONE, 3, 3, 0, 3), ROUND, 9);
    READ(&R, 9, of(RHX_DONE, 3, 3, 0, 3), ROUND, 9);
    READ(&R, 8, refused(RHX_CALL, 18), ROUND, 0);
    READ(&STOP, 0, of(RHX_DONE, 1, 3, 0, 0), ROUND, 0);
    part = "write";
    WRITE(3, 3, 0, ROUND, 9, 40, wrote(30), &R);
    WRITE(3, 3, 0, ROUND, 9, 30, wrote(30), &R);
    WRITE(3, 3, 0, ROUND, 9, 29, refused(RHX_CALL, 18), &NOTHING);
    WRITE(0, 3, 0, ROUND, 9, 40, refused(RHX_RULE, 2), &NOTHING);
    WRITE(3, 3, 0, ROUND, 8, 40, refused(RHX_RULE, 3), &NOTHING);
    WRITE(3, 3, 3, ROUND, 9, 40, refused(RHX_RULE, 4), &NOTHING);
    WRITE(3, 3, 0, bad, 3, 40, refused(RHX_RULE, 5), &NOTHING);
    part = "moves of one state";
    MOVES_OF(&R, 0, 12, 6);
    MOVES_OF(&R, 2, 24, 6);
    MOVES_OF(&CHOICE, 0, 12, 12);
    MOVES_OF(&CHOICE, 3, 0, 0);
    MOVES_OF(&R, 3, 0, 0);
    MOVES_OF(&R, 65535, 0, 0);
    MOVES_OF(&NOTHING, 0, 0, 0);
}

/* ---- refusals */

/* A damaged table is refused by its number, for whichever table it is. */
static void refused_table(const struct table *t, unsigned number) {
    READ(t, 16, refused(RHX_RULE, number), ROUND, 0);
    CHECK(t, &R, RHX_TRACES, refused(RHX_RULE, number), "");
    CHECK(&R, t, RHX_FAILURES, refused(RHX_FLOW, number), "");
    JOIN(t, &R, 0, 40, refused(RHX_RULE, number), &NOTHING);
    JOIN(&R, t, 0, 40, refused(RHX_FLOW, number), &NOTHING);
    WATCHDOG(for_result(80), t, refused(RHX_RULE, number), &NOTHING);
    MOVES_OF(t, 0, 0, 0);
}

static void refusals_1_to_7(void) {
    static const struct {
        unsigned number, at, value;
    } damage[] = {{2, 0, 0}, {2, 0, 1025}, {2, 2, 64}, {2, 6, 4097}, {3, 8, 13}, {3, 10, 1}, {3, 6, 4},
                  {4, 4, 3}, {5, 16, 3},   {5, 14, 4}, {5, 12, 3},   {6, 18, 0}};
    struct table t = R;
    part = "refusal 1";
    t.len = 11;
    refused_table(&t, 1);
    t.len = 0;
    refused_table(&t, 1);
    part = "refusals 2 to 7";
    for (size_t i = 0; i < sizeof damage / sizeof *damage; i++) {
        t = R;
        set16(&t, damage[i].at, damage[i].value);
        if (damage[i].number == 6) set16(&t, 20, 1), set16(&t, 22, 1);
        refused_table(&t, damage[i].number);
    }
    t = R;
    set16(&t, 14, 0); /* 0 silent to 0 */
    set16(&t, 16, 0);
    refused_table(&t, 7);
}

static void refusals_8_to_12(void) {
    static const size_t short16[] = {0, 1, 32767}, short64[] = {0, 5, 127};
    struct table t;
    struct room room = ENOUGH;
    part = "refusal 8";
    CHECK(&R, &R, 2, refused(RHX_CALL, 8), "");
    CHECK(&NOTHING, &NOTHING, 256, refused(RHX_CALL, 8), "");
    part = "refusal 9";
    ring(&t, 3, 1);
    CHECK(&R, &t, RHX_TRACES, refused(RHX_CALL, 9), "");
    part = "refusal 10";
    ring(&t, 65, 3);
    CHECK(&t, &R, RHX_TRACES, refused(RHX_RULE, 10), "");
    WATCHDOG(for_result(80), &t, refused(RHX_RULE, 10), &NOTHING);
    part = "refusal 11";
    for (int i = 0; i < 3; i++) {
        CHECK_IN(((struct room){short16[i], RHX_WORK64_NUMBERS, 8}), &R, &R, RHX_TRACES, refused(RHX_CALL, 11), "");
        CHECK_IN(((struct room){RHX_WORK16_NUMBERS, short64[i], 8}), &R, &R, RHX_TRACES, refused(RHX_CALL, 11), "");
        WATCHDOG(((struct room){short16[i], short64[i], 80}), &R, refused(RHX_CALL, 11), &NOTHING);
    }
    part = "refusal 12"; /* what was done seven events ago: 128 sets of 8 states */
    begin(&t, 8, 3);
    add(&t, 0, 1, 0);
    add(&t, 0, 2, 0);
    add(&t, 0, 2, 1);
    for (unsigned i = 1; i < 7; i++) {
        add(&t, i, 1, i + 1);
        add(&t, i, 2, i + 1);
    }
    CHECK(&t, &R, RHX_TRACES, refused(RHX_RULE, 12), "");
    WATCHDOG(for_result(RHX_TABLE_BYTES), &t, refused(RHX_RULE, 12), &NOTHING);
    part = "larger workspaces";
    room.work16 += 5;
    room.work64 += 3;
    CHECK_IN(room, &R, &R, RHX_FAILURES, passes(3, 3), "");
}

static void refusals_15_to_19(void) {
    struct table t, u;
    part = "refusal 15";
    JOIN(&R, &R, 1, 40, refused(RHX_CALL, 15), &NOTHING);
    JOIN(&R, &R, 1 << 4, 40, refused(RHX_CALL, 15), &NOTHING);
    part = "refusal 16";
    ring(&t, 33, 3);
    ring(&u, 32, 3);
    JOIN(&t, &u, 0, RHX_TABLE_BYTES, refused(RHX_CALL, 16), &NOTHING);
    part = "refusal 17";
    begin(&t, 32, 3);
    for (unsigned i = 0; i < 32; i++)
        for (unsigned e = 1; e <= 3; e++) add(&t, i, e, (i + 1) % 32);
    JOIN(&t, &t, 0, RHX_TABLE_BYTES, refused(RHX_CALL, 17), &NOTHING);
    part = "refusal 18";
    READ(&R, 0, refused(RHX_CALL, 18), ROUND, 0);
    JOIN(&R, &R, 0, 0, refused(RHX_CALL, 18), &NOTHING);
    WATCHDOG(for_result(0), &R, refused(RHX_CALL, 18), &NOTHING);
    part = "refusal 19";
    ring(&t, 3, 63);
    WATCHDOG(for_result(80), &t, refused(RHX_RULE, 19), &NOTHING);
}

/* A length of 0 asks for no memory. */
static void nothing_lent(void) {
    struct lent a = lend(sizeof(struct answer));
    part = "nothing lent";
    rhx_read(NULL, 0, NULL, 0, inside(a));
    expect_answer(a, refused(RHX_RULE, 1), __LINE__);
    a = lend(sizeof(struct answer));
    rhx_check(NULL, 0, NULL, 0, RHX_TRACES, NULL, 0, NULL, 0, NULL, 0, inside(a));
    expect_answer(a, refused(RHX_RULE, 1), __LINE__);
}

int main(void) {
    make_tables();
    nothing_lent();
    cases_1_to_6();
    cases_7_to_9();
    cases_10_to_12();
    case_13();
    long_trace();
    reader_and_writer();
    refusals_1_to_7();
    refusals_8_to_12();
    refusals_15_to_19();
    printf("%u passed, %u failed\n", passed, failed);
    return failed != 0;
}
