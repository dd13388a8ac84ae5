"""Document 01's trial tables, and its cases as calls."""

from calls import bytes_field, line
from drafts import Draft
from rhythmoxa import LEAST_16, LEAST_64

ROUND = [(0, 1, 1), (1, 2, 2), (2, 3, 0)]
CHOICE = [(0, 0, 1), (0, 0, 2), (1, 1, 3), (2, 2, 3)]


def table(moves, events=3):
    """A table given without n: n is the highest state named plus one, the start is 0."""
    states = 1 + max((max(origin, target) for origin, _, target in moves), default=0)
    return Draft(states, events, 0, moves).data()


R = table(ROUND)
STOP = table([])
DIV = table([(0, 0, 1), (1, 0, 0)])
LOOP = table([(0, 1, 0)], events=1)

# By case: rule and flow
CHECKS = {
    1: (R, R),
    2: (R, table(ROUND + [(1, 3, 0)])),
    3: (R, table([(0, 1, 1)])),
    4: (R, STOP),
    5: (R, DIV),
    6: (DIV, STOP),
    7: (table(CHOICE), table([(0, 1, 1), (0, 2, 1)])),
    8: (table(CHOICE), table([(0, 1, 1)])),
    9: (STOP, table([(0, 2, 1), (0, 3, 1)])),
}


def check_calls(rule, flow):
    """In both modes and by the short form, with a trace buffer longer than needed that holds junk."""
    tables = bytes_field(rule), bytes_field(flow)
    lent = (LEAST_16, LEAST_64, 7)
    buffer = "a1a2a3a4"
    return [line("check", *tables, mode, *lent, buffer) for mode in (0, 1)] + [line("short", *tables, *lent, buffer)]


def builder_calls():
    """Cases 10 to 12, into buffers that just fit and that are short by one byte."""
    calls = []
    for missing in (0, 1):
        calls.append(line("join", bytes_field(R), bytes_field(R), 0b1110, "bb" * (30 - missing)))
        calls.append(line("join", bytes_field(LOOP), bytes_field(LOOP), 0, "bb" * (18 - missing)))
        calls.append(line("dog", bytes_field(R), LEAST_16, LEAST_64, 7, "bb" * (72 - missing)))
    return calls


def trace_of_five_calls():
    """Case 13's second half: a trace of 5 fits 5 bytes, not 4."""
    rule = bytes_field(table([(at, 1, at + 1) for at in range(4)], events=1))
    flow = bytes_field(table([(0, 1, 0)], events=1))
    return [line("check", rule, flow, 0, LEAST_16, LEAST_64, 7, "cc" * length) for length in (5, 4)]


def trial_calls():
    calls = [call for case in sorted(CHECKS) for call in check_calls(*CHECKS[case])]
    return calls + builder_calls() + trace_of_five_calls()
