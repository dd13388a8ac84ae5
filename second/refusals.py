"""Every refusal alone and every two that can apply to one call at once, as calls, with the refusal to expect.

A refusal is (whose, number). Each call's order of refusals is document 01's. A call is made from a set of spoils:
each makes its refusal apply and hides no other, so of two the one that comes first in the order is expected.
"""

from itertools import combinations

from calls import bytes_field, line, numbers_field
from dice import Dice
from drafts import Draft
from rhythmoxa import CALL, FLOW, LEAST_16, LEAST_64, RULE
from shapes import Alphabet, remembering, round_by
from trial import ROUND

OF_A_TABLE = range(1, 8)
OF_THE_RULE = [(RULE, number) for number in OF_A_TABLE]
OF_THE_FLOW = [(FLOW, number) for number in OF_A_TABLE]
OF_A_CHECK = [(CALL, 9), (RULE, 10), (CALL, 11), (RULE, 12), (CALL, 13), (CALL, 14)]

SHORT_ORDER = OF_THE_RULE + OF_THE_FLOW + OF_A_CHECK
CHECK_ORDER = [(CALL, 8)] + SHORT_ORDER
JOIN_ORDER = OF_THE_RULE + OF_THE_FLOW + [(CALL, 15), (CALL, 16), (CALL, 17), (CALL, 18)]
DOG_ORDER = OF_THE_RULE + [(RULE, 10), (RULE, 19), (CALL, 11), (RULE, 12), (CALL, 18)]
READ_ORDER = OF_THE_RULE + [(CALL, 18)]
WRITE_ORDER = OF_THE_RULE[1:] + [(CALL, 18)]

# Ways to be wrong, taken in turn
MODES = [2, 256, 65535]
SHORT_WORKSPACES = [(LEAST_16 - 1, LEAST_64), (LEAST_16, LEAST_64 - 1), (0, 0)]
JOINING_SETS = [1, 1 << 4, 1 << 63]

JUNK = bytes(range(100, 220))  # room for every table that is written here


def spoil_table(draft, number):
    if number == 1:
        draft.length = 11
    elif number == 2:
        draft.states = 1025
    elif number == 3:
        draft.offset = 13
    elif number == 4:
        draft.start = 2000
    elif number == 5:
        origin, event, _ = draft.moves[-1]
        draft.moves.append((origin, event, 3000))
    elif number == 6:
        draft.moves.append((0, 1, 0))
    else:
        draft.moves.insert(0, (0, 0, 0))


def spoiled(draft, spoils, whose):
    """The table with those spoils that are its own. Upwards: 5 adds a last move in order, 6 one out of order."""
    for owner, number in sorted(spoils):
        if owner == whose and number in OF_A_TABLE:
            spoil_table(draft, number)
    return draft


def many_nodes():
    return remembering(Dice(1), Alphabet(3, [1, 2]), 7)


def lent_workspaces(spoils, turn):
    lengths = SHORT_WORKSPACES[turn % 3] if (CALL, 11) in spoils else (LEAST_16, LEAST_64)
    return (*lengths, turn + 1)


def checked_rule(spoils):
    if (RULE, 12) in spoils:
        rule = many_nodes()
    elif (CALL, 13) in spoils:
        rule = Draft(17, 3, 0, round_by(1, 17))
    else:
        rule = Draft(3, 3, 0, ROUND)
    if (RULE, 10) in spoils:
        rule.states = 65
    return spoiled(rule, spoils, RULE)


def checked_flow(spoils):
    """It does 1 and then 3, which none of the rules allows: there is a trace of 2 to be reported."""
    flow = Draft(3, 3, 0, ROUND + [(1, 3, 0)])
    if (CALL, 13) in spoils:
        flow.states = 1024
    if (CALL, 9) in spoils:
        flow.events = 4
    return spoiled(flow, spoils, FLOW)


def checked(spoils, turn):
    """The fields that the check and its short form have in common."""
    tables = bytes_field(checked_rule(spoils).data()), bytes_field(checked_flow(spoils).data())
    trace = JUNK[:1] if (CALL, 14) in spoils else JUNK[:2]
    return tables, (*lent_workspaces(spoils, turn), bytes_field(trace))


def check_call(spoils, turn):
    tables, lent = checked(spoils, turn)
    mode = MODES[turn % 3] if (CALL, 8) in spoils else turn % 2
    return line("check", *tables, mode, *lent)


def short_call(spoils, turn):
    tables, lent = checked(spoils, turn)
    return line("short", *tables, *lent)


def joined_table(spoils):
    """With 17, 32 states and 96 moves: twice that joined on no event makes 6,144 moves."""
    if (CALL, 17) in spoils:
        return Draft(32, 3, 0, [move for event in (1, 2, 3) for move in round_by(event, 32)])
    return Draft(3, 3, 0, ROUND)


def join_call(spoils, turn):
    first, second = joined_table(spoils), joined_table(spoils)
    if (CALL, 16) in spoils:
        second.states = 1024 // first.states + 1
    tables = spoiled(first, spoils, RULE).data(), spoiled(second, spoils, FLOW).data()
    shared = JOINING_SETS[turn % 3] if (CALL, 15) in spoils else 0
    result = JUNK[:119] if (CALL, 18) in spoils else JUNK
    return line("join", *map(bytes_field, tables), shared, bytes_field(result))


def dog_call(spoils, turn):
    rule = many_nodes() if (RULE, 12) in spoils else Draft(3, 3, 0, ROUND)
    if (RULE, 10) in spoils:
        rule.states = 65
    if (RULE, 19) in spoils:
        rule.events = 63
    data = spoiled(rule, spoils, RULE).data()
    result = JUNK[:71] if (CALL, 18) in spoils else JUNK[:72]
    return line("dog", bytes_field(data), *lent_workspaces(spoils, turn), bytes_field(result))


def read_call(spoils, _turn):
    data = spoiled(Draft(3, 3, 0, ROUND), spoils, RULE).data()
    room = 8 if (CALL, 18) in spoils else 20
    return line("read", bytes_field(data), numbers_field([41] * room))


def write_call(spoils, turn):
    """Its 3 is about the list: not in threes."""
    draft = spoiled(Draft(3, 3, 0, ROUND), [spoil for spoil in spoils if spoil != (RULE, 3)], RULE)
    numbers = draft.numbers() + ([1] * (1 + turn % 2) if (RULE, 3) in spoils else [])
    result = JUNK[:29] if (CALL, 18) in spoils else JUNK[:50]
    given = (draft.states, draft.events, draft.start)
    return line("write", *given, numbers_field(numbers), bytes_field(result))


def ones_and_pairs(order):
    """Each refusal alone and each two, in the order that decides between them."""
    return [(refusal,) for refusal in order] + list(combinations(order, 2))


CALLS = [
    (check_call, CHECK_ORDER),
    (short_call, SHORT_ORDER),
    (join_call, JOIN_ORDER),
    (dog_call, DOG_ORDER),
    (read_call, READ_ORDER),
    (write_call, WRITE_ORDER),
]


def refusal_calls():
    """Each as (call line, the refusal to expect)."""
    for call, order in CALLS:
        for turn, spoils in enumerate(ones_and_pairs(order)):
            yield call(spoils, turn), spoils[0]


def unspoiled_calls():
    """The same calls with nothing spoiled: none is refused."""
    return [call((), 0) for call, _ in CALLS]
