"""Calls kept because each tells a wrong program from a right one: (the error that it shows, the call, its answer).

Document 01's "errors that look reasonable" and the versions it wants shut out stand here where no trial case shows
them. Any difference ever found between this program and the library becomes a line here.
"""

from calls import bytes_field, line, numbers_field
from drafts import Draft
from rhythmoxa import LEAST_16, LEAST_64
from shapes import Alphabet, long_chain, round_by
from trial import R, ROUND, STOP, table

JUNK = "a1a2a3a4a5a6a7a8"


def checked(rule, flow, mode):
    return line("check", bytes_field(rule), bytes_field(flow), mode, LEAST_16, LEAST_64, 3, JUNK)


def with_trace(answer, *trace):
    """The answer to a check with this trace in the buffer's front."""
    return f"{answer} zero zero {bytes(trace).hex()}{JUNK[2 * len(trace):]}"


def joined(first, second, shared, room):
    return line("join", bytes_field(first), bytes_field(second), shared, "bb" * room)


def guarded(rule, room):
    return line("dog", bytes_field(rule), LEAST_16, LEAST_64, 3, "bb" * room)


def order_of_traces():
    """Which fault is the first one."""
    once = table([(0, 1, 1)], events=2)
    late_silent = [(0, 0, 3), (3, 0, 4), (4, 0, 5), (5, 2, 2)]
    yield (
        "silent moves are counted in the length of a path",
        checked(once, table([(0, 1, 1), (1, 1, 2)] + late_silent, events=2), 0),
        with_trace("trace-fault 1", 2),
    )
    yield (
        "pairs are checked by flow state alone",
        checked(table([(0, 1, 1), (1, 1, 2)], events=1), table([(0, 1, 0)], events=1), 0),
        with_trace("trace-fault 3", 1, 1, 1),
    )
    yield (
        "pairs after one trace are gone on from one by one",
        checked(STOP, table([(0, 0, 1), (0, 0, 2), (1, 2, 3), (2, 1, 3)]), 0),
        with_trace("trace-fault 1", 1),
    )
    yield (
        "the walk goes deep first",
        checked(table([(0, 1, 1), (1, 1, 2)], 2), table([(0, 1, 1), (0, 2, 0), (1, 1, 2), (2, 1, 3)], 2), 0),
        with_trace("trace-fault 1", 2),
    )
    yield (
        "of two traces of one length the one with the lesser last event is taken",
        checked(table([(0, 1, 1), (0, 2, 2)]), table([(0, 1, 1), (0, 2, 2), (1, 3, 3), (2, 1, 3)]), 0),
        with_trace("trace-fault 2", 1, 3),
    )


def kinds_of_fault():
    """A trace fault and a refusal fault of one length: the trace decides, not the kind."""
    both = [(0, 1, 1), (0, 2, 2)]
    yield (
        "a trace fault comes before a refusal fault",
        checked(table(both + [(1, 2, 3), (3, 1, 3)], 2), table(both + [(1, 2, 3), (2, 1, 3)], 2), 1),
        with_trace("refusal-fault 2 0", 1, 2),
    )
    yield (
        "a refusal fault comes before a trace fault",
        checked(table(both + [(2, 2, 3), (3, 1, 3)], 2), table(both + [(1, 1, 3), (2, 2, 3)], 2), 1),
        with_trace("trace-fault 2", 1, 1),
    )
    yield (
        "a refusal is seen in mode 0",
        checked(table(both + [(1, 2, 3), (3, 1, 3)], 2), table(both + [(1, 2, 3), (2, 1, 3)], 2), 0),
        with_trace("trace-fault 2", 2, 1),
    )


def offers_of_a_fault():
    """The rule may refuse all but 1; so offers {1} show nothing, {2} and {3} do, and {2} is the lesser number."""
    rule = table([(0, 0, 1), (0, 2, 2), (0, 3, 2), (1, 1, 2)])
    choices = [(0, 0, 1), (0, 0, 2), (0, 0, 3), (1, 3, 4), (2, 2, 4), (3, 1, 4)]
    yield (
        "the least offers of all stable flow states, or the first found, are given",
        checked(rule, table(choices), 1),
        "refusal-fault 0 4 zero zero same",
    )
    one_or_two = [(0, 0, 1), (0, 0, 2), (1, 3, 3), (2, 1, 3), (2, 2, 3)]
    yield (
        "the offers with the fewest events are given",
        checked(table([(0, 1, 1), (0, 2, 1), (0, 3, 1)]), table(one_or_two), 1),
        "refusal-fault 0 6 zero zero same",
    )
    ends = table([(0, 1, 0), (0, 62, 0), (0, 63, 0)], events=63)
    yield (
        "event 63 is lost in a number of 63 bits",
        checked(ends, table([(0, 62, 0), (0, 63, 0)], events=63), 1),
        f"refusal-fault 0 {2**62 + 2**63} zero zero same",
    )
    yield (
        "a stable rule state whose offers are among the flow's is looked for at the first state only",
        checked(table([(0, 0, 1), (0, 0, 2), (0, 3, 3), (1, 1, 3), (2, 2, 3)]), table([(0, 2, 1), (0, 3, 1)]), 1),
        "passes 2 2 zero zero same",
    )


def counts_and_limits():
    """Nodes and pairs, and refusals 12 and 13."""
    one_way = Alphabet(2, [1, 2])
    still = table([], events=2)
    yield "64 nodes are refused", checked(long_chain(one_way, 64, False).data(), still, 0), "passes 64 1 zero zero same"
    yield "65 nodes pass", checked(long_chain(one_way, 64, True).data(), still, 0), "refused 1 12 zero zero same"
    yield (
        "13 is about pairs met",
        checked(Draft(17, 1, 0, round_by(1, 17)).data(), Draft(1024, 1, 0, []).data(), 0),
        "refused 0 13 zero zero same",
    )
    yield (
        "13 is about rule states",
        checked(Draft(64, 3, 0, ROUND).data(), Draft(1024, 3, 1023, []).data(), 0),
        "passes 3 1 zero zero same",
    )
    yield (
        "a node without a state is counted",
        checked(table([(0, 1, 1)], events=2), table([(0, 1, 1)], events=2), 1),
        "passes 2 2 zero zero same",
    )
    yield "a wide mode wraps", checked(R, R, 256), "refused 0 8 zero zero same"


def joins():
    wide = table([(0, 63, 0)], events=63)
    yield "63 is above 63", joined(wide, wide, 2**64 - 2, 18), f"written 18 {wide.hex()}"
    yield "events only one table has are not shared", joined(R, wide, 2**63, 30), f"written 30 {table(ROUND, 63).hex()}"
    squares = [Draft(256, 1, 0, []).data()] * 2
    yield "16 is tried in 16 bits", joined(*squares, 0, 12), "refused 0 16 same"
    loops = [(state, 3, state) for state in range(32)]
    pair = [Draft(32, 5, 0, loops + round_by(event, 32) + round_by(5, 32)[:16]).data() for event in (1, 2)]
    yield "17 counts a move as often as it is produced", joined(*pair, 0, 12), "refused 0 18 same"


def builders_and_readers():
    found = Draft(3, 2, 0, [(0, 1, 2), (0, 2, 0), (0, 2, 1), (2, 2, 2)])
    dog = Draft(4, 3, 0, [(0, 1, 1), (0, 2, 2), (1, 1, 3), (1, 2, 1), (2, 1, 1), (2, 2, 2), (3, 3, 3)])
    yield "nodes are numbered by their states", guarded(found.data(), 54), f"written 54 zero zero {dog.data().hex()}"
    alarm = Draft(2, 1, 0, [(1, 1, 1)]).data()
    yield "no event, no watchdog", guarded(table([], events=0), 18), f"written 18 zero zero {alarm.hex()}"
    rising = Draft(300, 1, 0, [(1, 1, 256), (1, 1, 257), (256, 1, 0)])
    yield (
        "moves are compared by bytes",
        line("read", rising.data().hex(), "0007" * 9),
        f"read 300 1 0 3 {numbers_field(rising.numbers())}",
    )
    yield "a part is sought by low bytes", line("moves", rising.data().hex(), 257), "part -"


def stored():
    for some in (order_of_traces, kinds_of_fault, offers_of_a_fault, counts_and_limits, joins, builders_and_readers):
        yield from some()


def stored_calls():
    return [call for _, call, _ in stored()]
