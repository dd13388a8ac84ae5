"""Large calls: few, fixed in kind, each at a limit. Only the junk in their buffers is drawn."""

from calls import bytes_field, line, numbers_field
from drafts import Draft
from rhythmoxa import HEADER, LEAST_16, LEAST_64, MOST_EVENTS, MOST_MOVES, MOST_PAIRS, MOST_STATES, MOVE
from shapes import Alphabet, remembering, round_by

ROOM = HEADER + MOVE * MOST_MOVES  # for any table


def full_table():
    """1,024 states with four moves each: 4,096 moves."""
    events = (1, 2, 62, MOST_EVENTS)
    moves = [
        (state, event, (state * 7 + event * 300) % MOST_STATES) for state in range(MOST_STATES) for event in events
    ]
    return Draft(MOST_STATES, MOST_EVENTS, MOST_STATES - 1, moves)


def overfull_table():
    draft = full_table()
    draft.moves.append((MOST_STATES - 1, MOST_EVENTS, MOST_STATES - 1))
    return draft


def reader_calls(dice):
    data = bytes_field(full_table().data())
    overfull = bytes_field(overfull_table().data())
    for length in (3 * MOST_MOVES, 3 * MOST_MOVES - 1):
        yield line("read", data, numbers_field([dice.below(65536) for _ in range(length)]))
    yield line("read", overfull, "ffff")
    for state in (MOST_STATES - 1, 256, MOST_STATES):
        yield line("moves", data, state)
    yield line("moves", overfull, MOST_STATES - 1)


def writer_calls(dice):
    """12,289 and 12,290 numbers make 4,096 moves and are not in threes; 12,291 make one move too many."""
    draft = full_table()
    given = (draft.states, draft.events, draft.start)
    for length in (ROOM, ROOM - 1):
        yield line("write", *given, numbers_field(draft.numbers()), bytes_field(dice.junk(length)))
    for more in (1, 2, 3):
        yield line("write", *given, numbers_field(draft.numbers() + [1023] * more), bytes_field(dice.junk(9)))


def going_round(nodes, states, gap):
    """A rule and a flow that together go through every pair (node, flow state) on one way.

    The flow goes round by 1, and by 2 for its last move. The rule goes round by 1 and stays by 2, so each round of
    the flow shifts it by states - 1 nodes, and it comes to every node if that has no factor in common with nodes.
    Each node may refuse all, by a silent move to a state without moves. With a gap, node 0 neither refuses 1 nor
    allows 2; it meets the flow's last state at the very end: a trace fault as late as can be, and in failures mode a
    refusal fault one event earlier.
    """
    patient = range(1 if gap else 0, nodes)
    moves = round_by(1, nodes) + [(node, 2, node) for node in patient] + [(node, 0, nodes) for node in patient]
    rule = Draft(nodes + 1, 2, 0, moves)
    return rule, Draft(states, 2, 0, round_by(1, states)[:-1] + [(states - 1, 2, 0)])


def check_line(dice, rule, flow, mode, room):
    tables = bytes_field(rule.data()), bytes_field(flow.data())
    return line("check", *tables, mode, LEAST_16, LEAST_64, 65535, bytes_field(dice.junk(room)))


def late_calls(dice):
    """The longest trace there can be, and all pairs met; one node more, and the limit is passed."""
    rule, flow = going_round(16, MOST_STATES, gap=True)
    yield check_line(dice, rule, flow, 0, MOST_PAIRS)
    yield check_line(dice, rule, flow, 0, MOST_PAIRS - 1)
    yield check_line(dice, rule, flow, 1, MOST_PAIRS - 1)
    yield check_line(dice, rule, flow, 1, MOST_PAIRS - 2)
    for mode in (0, 1):
        yield check_line(dice, *going_round(16, MOST_STATES, gap=False), mode, 3)
        yield check_line(dice, *going_round(17, MOST_STATES, gap=True), mode, 3)
        yield check_line(dice, *going_round(61, 268, gap=False), mode, 3)


def wide_calls(dice):
    """Flows of many moves, of one long silent ring, and of more sets of states than can be told apart."""
    anything = Draft(1, MOST_EVENTS, 0, [(0, event, 0) for event in range(1, MOST_EVENTS + 1)])
    silent_ring = Draft(MOST_STATES, 2, 700, round_by(0, MOST_STATES))
    pair = Draft(1, 2, 0, [(0, 1, 0), (0, 2, 0)])
    for mode in (0, 1):
        yield check_line(dice, anything, full_table(), mode, 5)
        yield check_line(dice, pair, silent_ring, mode, 5)
        yield check_line(dice, pair, remembering(dice, Alphabet(2, [1, 2]), 40), mode, 5)


def builder_calls(dice):
    """Joins of 4,096 moves and of more, written in full and with a buffer short by one; the longest watchdog."""
    full = bytes_field(full_table().data())
    still = bytes_field(Draft(1, 0, 0, []).data())
    looping = bytes_field(Draft(1, 5, 0, [(0, 5, 0)]).data())
    for length in (ROOM, ROOM - 1):
        yield line("join", full, still, 0, bytes_field(dice.junk(length)))
    yield line("join", still, full, 0, bytes_field(dice.junk(20)))
    yield line("join", looping, full, 0, bytes_field(dice.junk(20)))
    yield line("join", looping, full, 1 << 5, bytes_field(dice.junk(ROOM + 3)))
    rule = Draft(64, 62, 0, round_by(1, 64))
    for length in (HEADER + MOVE * (64 * 62 + 1) + 2, HEADER + MOVE * (64 * 62 + 1) - 1):
        yield line("dog", bytes_field(rule.data()), LEAST_16, LEAST_64, 65535, bytes_field(dice.junk(length)))


def large_calls(dice):
    for calls in (reader_calls, writer_calls, late_calls, wide_calls, builder_calls):
        yield from calls(dice)
