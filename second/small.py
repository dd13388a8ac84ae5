"""Small calls, drawn: tables of a few states, good and damaged, with buffers that fit, nearly fit, or do not."""

import rhythmoxa
from calls import bytes_field, line, numbers_field
from drafts import Draft, damage
from shapes import Alphabet, alphabet, choosing_pair, determined, far_states, long_chain, looser, near, remembering
from shapes import round_by, small_table, two_rings

ROOM = rhythmoxa.HEADER + rhythmoxa.MOVE * rhythmoxa.MOST_MOVES  # for any table
LONG_RESULT = 1600  # bytes; a result longer than this is asked for with too short a buffer, to keep lines short


def length_around(dice, needed):
    """A buffer's length near to what is needed: just enough, one less, more, or anything."""
    which = dice.below(10)
    if which < 5:
        return needed
    if which < 6:
        return max(needed - 1, 0)
    if which < 9:
        return needed + dice.between(1, 8)
    return dice.below(needed + 1)


def result_buffer(dice, answer):
    """A result buffer for a call that gave this answer when it had room enough."""
    if answer[0] != "written" or answer[1] > LONG_RESULT:
        return dice.junk(dice.below(40))
    return dice.junk(length_around(dice, answer[1]))


def workspaces(dice):
    """Both lengths, and the junk that they hold before the call."""
    length16, length64 = rhythmoxa.LEAST_16, rhythmoxa.LEAST_64
    if dice.chance(15):
        length16, length64 = length16 + dice.below(33), length64 + dice.below(33)
    return length16, length64, dice.weighted([(0, 70), (dice.between(1, 65535), 25), (65535, 5)])


def short_workspaces(dice):
    """At least one of the two is short, and both hold junk."""
    length16, length64, _ = workspaces(dice)
    which = dice.below(3)
    if which != 0:
        length16 = dice.pick([0, 1, 128, 255, 16384, 32767])
    if which != 1:
        length64 = dice.pick([0, 1, 64, 127])
    return length16, length64, dice.between(1, 65535)


# The reader, the writer, the moves of one state


def any_table(dice):
    letters = alphabet(dice)
    return far_states(dice, letters) if dice.chance(20) else small_table(dice, letters)


def maybe_damaged(dice, draft, hundredths):
    if dice.chance(hundredths):
        damage(draft, dice, dice.weighted([(1, 60), (2, 40)]))
    return draft


def read_call(dice):
    draft = maybe_damaged(dice, any_table(dice), 50)
    length = length_around(dice, 3 * len(draft.moves))
    return line("read", bytes_field(draft.data()), numbers_field([dice.below(65536) for _ in range(length)]))


def write_call(dice):
    draft = maybe_damaged(dice, any_table(dice), 45)
    numbers = draft.numbers()
    if dice.chance(12):
        numbers += [dice.below(4) for _ in range(dice.between(1, 2))]
    given = (draft.states, draft.events, draft.start & 0xFFFF)
    numbers = [number & 0xFFFF for number in numbers]
    answer, _ = rhythmoxa.write(*given, numbers, bytes(ROOM))
    return line("write", *given, numbers_field(numbers), bytes_field(result_buffer(dice, answer)))


def moves_call(dice):
    draft = maybe_damaged(dice, any_table(dice), 25)
    named = [number for move in draft.moves for number in (move[0], move[2])]
    states = [0, draft.states - 1, draft.states, 255, 256, 65535] + 3 * named
    return line("moves", bytes_field(draft.data()), dice.pick(states) & 0xFFFF)


# The check and its short form


class Question:
    """What a check is asked, before its trace buffer is chosen."""

    def __init__(self, dice, rule, flow):
        self.rule = rule
        self.flow = flow
        self.mode = dice.weighted([(0, 35), (1, 65)])
        self.workspaces = workspaces(dice)

    def tables(self):
        return self.rule.data(), self.flow.data()


def near_pair(dice, letters):
    rule = small_table(dice, letters)
    return (looser(dice, rule, letters) if dice.chance(50) else rule), near(dice, rule, letters)


def unrelated_pair(dice, letters):
    return small_table(dice, letters), small_table(dice, letters)


def rule_of_many_nodes(dice, letters):
    """Up to 64 nodes, or more."""
    if dice.chance(15):
        return long_chain(letters, dice.pick([63, 64]), dice.chance(50))
    return remembering(dice, letters, dice.pick([2, 3, 3, 4, 4, 5, 6, 7, 20]))


def many_nodes_pair(dice, letters):
    if len(letters.palette) < 2:
        return near_pair(dice, letters)
    rule = rule_of_many_nodes(dice, letters)
    return rule, dice.pick([near(dice, rule, letters), small_table(dice, letters)])


def determined_pair(dice, letters):
    rule = small_table(dice, letters)
    return rule, near(dice, determined(rule), letters)


def far_pair(dice, letters):
    return small_table(dice, letters), far_states(dice, letters)


def late_pair(dice, _letters):
    return two_rings(dice)


# Mostly near to each other: unrelated tables show a fault at the first event.
PAIRS = [
    (near_pair, 54),
    (choosing_pair, 10),
    (late_pair, 10),
    (unrelated_pair, 8),
    (many_nodes_pair, 8),
    (determined_pair, 6),
    (far_pair, 4),
]


def rule_and_flow(dice):
    return dice.weighted(PAIRS)(dice, alphabet(dice))


def spoil_mode(dice, question):
    question.mode = dice.pick([2, 3, 255, 256, 257, 512, 65535])


def spoil_rule(dice, question):
    damage(question.rule, dice, dice.between(1, 2))


def spoil_flow(dice, question):
    damage(question.flow, dice, dice.between(1, 2))


def spoil_events(dice, question):
    table = dice.pick([question.rule, question.flow])
    table.events = table.events + 1 if table.events < rhythmoxa.MOST_EVENTS else 0


def spoil_rule_states(dice, question):
    question.rule.states = max(question.rule.states, dice.pick([63, 64, 65, 65, 66, 256, 1024]))


def spoil_workspaces(dice, question):
    question.workspaces = short_workspaces(dice)


def spoil_nodes(dice, question):
    """A rule that may have more than 64 nodes."""
    letters = Alphabet(question.rule.events, list(range(1, question.rule.events + 1)))
    if len(letters.palette) > 1:
        question.rule = rule_of_many_nodes(dice, letters)


def spoil_flow_states(dice, question):
    """So many flow states that nodes × flow states is near its limit, or past it."""
    try:
        nodes = len(rhythmoxa.Nodes(question.rule.table()).sets)
    except rhythmoxa.Refused:
        nodes = 64
    most = rhythmoxa.MOST_PAIRS // nodes
    states = min(most + dice.pick([0, 0, 1, 1, 5, 1000]), rhythmoxa.MOST_STATES)
    question.flow.states = max(question.flow.states, states)


def spoil_flow_near_limit(dice, question):
    """A ring of 16 or 17 nodes: with a flow of 1,024 states only the first goes through."""
    length = dice.pick([16, 17])
    question.rule.states = length
    question.rule.start = 0
    question.rule.events = max(question.flow.events, 1)
    question.flow.events = question.rule.events
    question.rule.moves = round_by(1, length)
    question.flow.states = max(question.flow.states, dice.pick([963, 964, 1023, 1024]))


SPOILS = [
    (spoil_mode, 10),
    (spoil_rule, 20),
    (spoil_flow, 20),
    (spoil_events, 10),
    (spoil_rule_states, 10),
    (spoil_workspaces, 10),
    (spoil_nodes, 8),
    (spoil_flow_states, 8),
    (spoil_flow_near_limit, 8),
]


def some_question(dice):
    question = Question(dice, *rule_and_flow(dice))
    for _ in range(dice.weighted([(0, 70), (1, 15), (2, 15)])):
        dice.weighted(SPOILS)(dice, question)
    return question


def trace_buffer(dice, question):
    """As long as the trace asks for, or nearly."""
    length16, length64, _ = question.workspaces
    answer, _ = rhythmoxa.check(*question.tables(), question.mode, length16, length64, bytes(rhythmoxa.MOST_PAIRS))
    faulty = answer[0] in ("trace-fault", "refusal-fault")
    return dice.junk(length_around(dice, answer[1] if faulty else dice.below(6)))


def check_call(dice):
    question = some_question(dice)
    buffer = trace_buffer(dice, question)
    tables = map(bytes_field, question.tables())
    return line("check", *tables, question.mode, *question.workspaces, bytes_field(buffer))


def short_call(dice):
    question = some_question(dice)
    question.mode = 0
    buffer = trace_buffer(dice, question)
    tables = map(bytes_field, question.tables())
    return line("short", *tables, *question.workspaces, bytes_field(buffer))


# The join and the watchdog


def joining_set(dice, events):
    """Mostly events that are there; sometimes event 0, or one above."""
    shared = dice.pick([0, (1 << (events + 1)) - 2, dice.word() & ((1 << (events + 1)) - 2)])
    if dice.chance(6):
        shared |= 1
    if events < 63 and dice.chance(6):
        shared |= 1 << dice.pick([events + 1, dice.between(events + 1, 63), 63])
    return shared


def spread_out(dice, draft, other):
    """Raises the count of states so that the join's is near 1,024, or past it."""
    states = rhythmoxa.MOST_STATES // other.states + dice.pick([-1, 0, 1, 1, 40])
    draft.states = min(max(draft.states, states), rhythmoxa.MOST_STATES)


def crowded(dice):
    """Two tables of 32 states, whose join on no event has 4,096 moves, or 32 more."""
    pair = [Draft(32, 3, 0, round_by(event, 32) + round_by(3, 32)) for event in (1, 2)]
    if dice.chance(50):
        dice.pick(pair).moves.append((31, 3, 31))
    return pair


def crowded_with_loops(dice):
    """The same counts, but 1,024 of the joined moves are produced twice, by a loop in each table."""
    loops = [(state, 3, state) for state in range(32)]
    pair = [Draft(32, 5, 0, loops + round_by(event, 32) + round_by(5, 32)[:16]) for event in (1, 2)]
    if dice.chance(50):
        dice.pick(pair).moves.append((31, 5, 31))
    return pair


def past_16_bits(dice):
    """So many states that their product passes 16 bits: what is left of it would be within the limit."""
    return [Draft(states, 1, 0, []) for states in dice.pick([(256, 256), (1024, 64), (1024, 1024), (65, 1024)])]


def near_a_limit(dice):
    """Joined on no event, for their count."""
    return dice.pick([crowded, crowded_with_loops, crowded_with_loops, past_16_bits])(dice), 0


def small_pair(dice):
    letters = alphabet(dice)
    pair = [small_table(dice, letters), small_table(dice, letters if dice.chance(60) else alphabet(dice))]
    which = dice.below(2)
    if dice.chance(12):
        spread_out(dice, pair[which], pair[1 - which])
    elif dice.chance(6):
        pair[which] = far_states(dice, letters)
    return pair, joining_set(dice, max(draft.events for draft in pair))


def join_call(dice):
    pair, shared = near_a_limit(dice) if dice.chance(3) else small_pair(dice)
    for draft in pair:
        maybe_damaged(dice, draft, 10)
    first, second = (draft.data() for draft in pair)
    answer, _ = rhythmoxa.join(first, second, shared, bytes(ROOM))
    return line("join", bytes_field(first), bytes_field(second), shared, bytes_field(result_buffer(dice, answer)))


def dog_rule(dice):
    letters = alphabet(dice)
    if len(letters.palette) > 1 and dice.chance(20):
        return rule_of_many_nodes(dice, letters)
    return small_table(dice, letters)


def dog_call(dice):
    rule = dog_rule(dice)
    lent = short_workspaces(dice) if dice.chance(10) else workspaces(dice)
    if dice.chance(12):
        rule.states = dice.pick([64, 65, 256, 1024])
    if dice.chance(8):
        rule.events = dice.pick([62, 63])
    maybe_damaged(dice, rule, 20)
    answer, _ = rhythmoxa.watchdog(rule.data(), lent[0], lent[1], bytes(ROOM))
    return line("dog", bytes_field(rule.data()), *lent, bytes_field(result_buffer(dice, answer)))


# Checks are the heart of it, and dearest: each clears two workspaces.
CALLS = [
    (check_call, 36),
    (short_call, 4),
    (dog_call, 8),
    (read_call, 11),
    (write_call, 12),
    (moves_call, 9),
    (join_call, 20),
]


def small_call(dice):
    return dice.weighted(CALLS)(dice)
