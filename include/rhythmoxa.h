/* Rhythmoxa for C and C++: tables of states and moves are read, written, checked, joined and turned into watchdogs.
 *
 * Link librhythmoxa.a (made by `tools/archive`, for x86-64 Linux); besides it, only memcpy and memset of the C library
 * are needed. The functions keep nothing between calls, use no heap, and may run at once on several threads with buffers of
 * their own.
 *
 * WHAT IS PROVED. Of each function, for every content of what is lent to it: what it answers, what every buffer holds after it,
 * that it touches nothing else and that it ends. The promises stand in crates/rhythmoxa/specs/Calls.antt.
 *
 * WHAT THE CALLER OWES. Nothing checks these, and where they are not kept nothing is promised:
 * - A pointer and its length (a count of elements) name memory that is there for the whole call, holds that many elements, and is
 *   aligned as its type is (uint16_t: 2, uint64_t: 8). `answer` names 8 numbers and is never null.
 * - A pointer whose length is 0 is never read nor written through: NULL will do.
 * - What a call writes (`list`, `out`, `trace`, `work16`, `work64`, `answer`) overlaps nothing else that the call is given. Two
 *   tables that a call only reads may be the same.
 * - No other thread writes what is lent, nor reads what the call writes, before the call returns.
 * What the call writes may hold anything before it. n, E, start, state and mode are 16-bit: C cuts a wider number down before
 * the call sees it, so test a wider one yourself.
 *
 * THE TABLE. All numbers are 16-bit, low byte first. A header of 12 bytes: count of states n, count of visible events E, start
 * state, count of moves m, the number 12, the number 0. Then m moves of 6 bytes: from, event, to; strictly ascending by from,
 * then event, then to. Event 0 is silent, visible events are 1 to E. n is 1 to 1,024, E 0 to 63, m 0 to 4,096.
 *
 * THE ANSWER. Every call writes all 8 numbers of `answer`, refused or not; a place that has no value holds 0:
 *
 *   kind                  [0]  [1] whose    [2] number   [3]      [4]      [5]     [6]     [7]
 *   RHX_REFUSED            0   enum         1 to 19      0        0        0       0       0
 *   RHX_DONE of rhx_read   1   0            0            n        E        start   m       0
 *   .. of rhx_moves_of     1   0            0            offset   size     0       0       0
 *   .. of the builders     1   0            0            length   0        0       0       0
 *   RHX_PASSES             2   0            0            nodes    pairs    0       0       0
 *   RHX_TRACE_FAULT        3   0            0            length   0        0       0       0
 *   RHX_REFUSAL_FAULT      4   0            0            length   offers   0       0       0
 *
 * A value keeps its place in every kind that has it. Later versions put further values only into places that hold 0 here, and
 * number further kinds from 5 on: take a kind that you don't know for one that you can't judge.
 */
#ifndef RHYTHMOXA_H
#define RHYTHMOXA_H

#include <stddef.h>
#include <stdint.h>

#ifdef __cplusplus
extern "C" {
#endif

/* Sizes. */
enum {
    RHX_HEADER_BYTES = 12,      /* of a table's header */
    RHX_MOVE_BYTES = 6,         /* of each move after it */
    RHX_TABLE_BYTES = 24588,    /* of the longest table: 12 + 6 * 4,096. A result buffer of this size is never too short */
    RHX_LIST_NUMBERS = 12288,   /* uint16_t in the longest list of moves, three a move */
    RHX_WORK16_NUMBERS = 32768, /* uint16_t that check and watchdog ask for */
    RHX_WORK64_NUMBERS = 128,   /* uint64_t that check and watchdog ask for */
    RHX_TRACE_BYTES = 16384,    /* of the longest trace that a check reports: nodes * flow states. With it, 14 never comes */
    RHX_ANSWER_NUMBERS = 8      /* uint64_t in an answer */
};

/* Limits of a table. */
enum {
    RHX_MAX_STATES = 1024,
    RHX_MAX_EVENTS = 63,
    RHX_MAX_MOVES = 4096,
    RHX_MAX_RULE_STATES = 64,
    RHX_MAX_RULE_NODES = 64
};

/* Places in an answer. */
enum rhx_place {
    RHX_KIND = 0,   /* enum rhx_kind */
    RHX_WHOSE = 1,  /* enum rhx_whose, of a refusal */
    RHX_NUMBER = 2, /* enum rhx_reason, of a refusal */
    RHX_STATES = 3, /* of rhx_read: n, E, start, m */
    RHX_EVENTS = 4,
    RHX_START = 5,
    RHX_MOVES = 6,
    RHX_OFFSET = 3, /* of rhx_moves_of: where the part begins in the table, and its size in bytes */
    RHX_SIZE = 4,
    RHX_NODES = 3,  /* of a pass: the rule's nodes, and the pairs (node, flow state) met by some trace */
    RHX_PAIRS = 4,
    RHX_LENGTH = 3, /* of a fault: the length of its trace; of a builder: the bytes written */
    RHX_OFFERS = 4  /* of a refusal fault: the offers, event e as 2 to the power e */
};

enum rhx_kind {
    RHX_REFUSED = 0,      /* with whose and number */
    RHX_DONE = 1,         /* read, written, joined, built, placed */
    RHX_PASSES = 2,       /* each trace of the flow, and in mode 1 each stable failure, is one of the rule */
    RHX_TRACE_FAULT = 3,  /* a flow trace that the rule lacks, while it has it without its last event */
    RHX_REFUSAL_FAULT = 4 /* after a trace of both, a stable flow state: no stable rule state has all its offers among its own */
};

/* Whose a refusal is. A join's first table counts as the rule, its second as the flow; a table alone counts as the rule. */
enum rhx_whose { RHX_CALL = 0, RHX_RULE = 1, RHX_FLOW = 2 };

/* The modes of a check. */
enum rhx_mode { RHX_TRACES = 0, RHX_FAILURES = 1 };

/* Why a call is refused. 1 to 7 are a table's (the rule's or the flow's), 10, 12 and 19 the rule's, all others the call's. Each
 * is given exactly when its words hold and none that is tried before it does; within a table 1 to 7 are tried in that order, each
 * over the whole table before the next. */
enum rhx_reason {
    RHX_SHORT_TABLE = 1,         /* fewer than 12 bytes */
    RHX_OUTSIDE_LIMITS = 2,      /* n, E or m outside its limits; of rhx_write, m is a third of list_len, rounded down */
    RHX_MISFRAMED = 3,           /* offset is not 12, the last header number is not 0, or the length is not 12 + 6 * m;
                                    of rhx_write, a list not in threes */
    RHX_BAD_START = 4,           /* start is not below n */
    RHX_MISNAMED = 5,            /* some move names a state not below n or an event above E */
    RHX_DISORDERED = 6,          /* the moves are not strictly ascending */
    RHX_CIRCLING = 7,            /* some silent move leads from a state to itself */
    RHX_UNKNOWN_MODE = 8,        /* mode is neither 0 nor 1 */
    RHX_OTHER_EVENTS = 9,        /* rule and flow have different E */
    RHX_MANY_STATES = 10,        /* the rule has more than 64 states */
    RHX_SHORT_WORKSPACE = 11,    /* below 32,768 16-bit numbers or 128 64-bit numbers */
    RHX_MANY_NODES = 12,         /* the rule has more than 64 nodes */
    RHX_MANY_PAIRS = 13,         /* nodes * flow states exceeds 16,384 */
    RHX_SHORT_TRACE = 14,        /* the trace buffer is shorter than the trace to be reported */
    RHX_STRAY_SET = 15,          /* the joining set names event 0 or one above the larger E */
    RHX_MANY_JOINED_STATES = 16, /* the joined table would have more than 1,024 states */
    RHX_MANY_JOINED_MOVES = 17,  /* it would have more than 4,096 moves */
    RHX_SHORT_RESULT = 18,       /* the result buffer (of rhx_read, the list) is shorter than what is to be written */
    RHX_ALL_EVENTS = 19          /* a watchdog is asked of a rule with E = 63 */
};

/* Reads a table. RHX_DONE: n, E, start and m; `list` holds the moves, three numbers a move, and its numbers past 3 * m stay.
 * Refused, in this order, by 1 to 7 (the rule's), 18 (the call's) where list_len is below 3 * m; `list` is then untouched. */
void rhx_read(const uint8_t *table, size_t table_len, uint16_t *list, size_t list_len, uint64_t answer[8]);

/* Writes the table of n, E, start and a list of moves, three numbers a move. RHX_DONE: the length written, 12 + 2 * list_len; the
 * bytes of `out` past it stay. Refused, in this order, by 2, 3, 4 to 7 (the rule's), 18 (the call's); `out` is then untouched. */
void rhx_write(uint16_t n, uint16_t e, uint16_t start, const uint16_t *list, size_t list_len, uint8_t *out, size_t out_len,
               uint64_t answer[8]);

/* Says where the moves of one state stand. RHX_DONE always: they are the `size` bytes of the table from `offset` on, 6 a move,
 * and lie within it. A state without moves, a state not below n and a table that would be refused give offset 0 and size 0. */
void rhx_moves_of(const uint8_t *table, size_t table_len, uint16_t state, uint64_t answer[8]);

/* Checks a flow against a rule in a mode.
 * RHX_PASSES: the counts of nodes and pairs; `trace` is untouched.
 * RHX_TRACE_FAULT, RHX_REFUSAL_FAULT: the length of the fault's trace, which stands in `trace`, one byte an event; the bytes past
 * it stay. It is the shortest trace of a fault, and the first of these by event numbers. A refusal fault also has the least
 * offers among the stable flow states that show it after that trace.
 * Refused, in this order, by 8, the rule's 1 to 7, the flow's 1 to 7, then 9 to 14; `trace` is then untouched.
 * Both workspaces hold zeros over their whole lengths after every call, refused or not, short or not. */
void rhx_check(const uint8_t *rule, size_t rule_len, const uint8_t *flow, size_t flow_len, uint16_t mode, uint16_t *work16,
               size_t work16_len, uint64_t *work64, size_t work64_len, uint8_t *trace, size_t trace_len, uint64_t answer[8]);

/* The short form of the check: rhx_check in mode 0. */
void rhx_check_short(const uint8_t *rule, size_t rule_len, const uint8_t *flow, size_t flow_len, uint16_t *work16,
                     size_t work16_len, uint64_t *work64, size_t work64_len, uint8_t *trace, size_t trace_len,
                     uint64_t answer[8]);

/* Joins two tables on a set of events, event e as 2 to the power e: these happen only when both tables do them, every other event
 * and the silent one when either does. State (p, q) gets number p * (states of the second) + q. RHX_DONE: the length written;
 * the bytes of `out` past it stay. Refused, in this order, by the first table's 1 to 7 (the rule's), the second's (the flow's),
 * 15, 16, 17, 18 (the call's); `out` is then untouched. */
void rhx_join(const uint8_t *first, size_t first_len, const uint8_t *second, size_t second_len, uint64_t set, uint8_t *out,
              size_t out_len, uint64_t answer[8]);

/* Builds the watchdog of a rule of k nodes: k + 1 states, E + 1 events, start 0; node i goes by e to its next node, or to state k
 * if there is none; state k can do event E + 1 and stays. RHX_DONE: the length written; the bytes of `out` past it stay. Refused,
 * in this order, by the rule's 1 to 7, 10 and 19, the call's 11, the rule's 12, the call's 18; `out` is then untouched.
 * Both workspaces hold zeros over their whole lengths after every call, refused or not, short or not. */
void rhx_watchdog(const uint8_t *rule, size_t rule_len, uint16_t *work16, size_t work16_len, uint64_t *work64, size_t work64_len,
                  uint8_t *out, size_t out_len, uint64_t answer[8]);

#ifdef __cplusplus
}
#endif

#endif
