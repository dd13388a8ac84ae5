"""Good tables of many shapes, and flows that are near to a given rule."""

from collections import namedtuple

import rhythmoxa
from drafts import Draft

# E, and the events that moves are drawn from: few of many, so that rule and flow meet in them
Alphabet = namedtuple("Alphabet", "events palette")


def alphabet(dice):
    events = dice.weighted([(0, 4), (1, 12), (2, 30), (3, 26), (4, 14), (63, 14)])
    if events < 63:
        return Alphabet(events, list(range(1, events + 1)))
    palette = {63} | {dice.pick([1, 2, 31, 32, 33, 61, 62]) for _ in range(3)}
    return Alphabet(events, sorted(palette))


def some_event(dice, letters, silent):
    """An event of the alphabet; silent in so many of a hundred cases."""
    if not letters.palette or dice.chance(silent):
        return 0
    return dice.pick(letters.palette)


def without_loops(moves):
    """A silent move from a state to itself would be refused."""
    return [move for move in moves if move[1] != 0 or move[0] != move[2]]


def drafted(dice, states, letters, moves):
    start = 0 if dice.chance(70) else dice.below(states)
    return Draft(states, letters.events, start, without_loops(moves))


def random_moves(dice, letters, states, count, silent):
    return [(dice.below(states), some_event(dice, letters, silent), dice.below(states)) for _ in range(count)]


def sparse(dice, letters):
    states = dice.between(1, 8)
    return drafted(dice, states, letters, random_moves(dice, letters, states, dice.between(0, 2 * states), 15))


def dense(dice, letters):
    states = dice.between(1, 4)
    share = dice.between(15, 60)
    events = [0] + letters.palette[:3]
    moves = [
        (origin, event, target)
        for origin in range(states)
        for event in events
        for target in range(states)
        if dice.chance(share)
    ]
    return drafted(dice, states, letters, moves)


def silent_cycles(dice, letters):
    """A silent ring, perhaps with a way in and a way out, among other moves."""
    states = dice.between(2, 7)
    length = dice.between(2, states)
    ring = [(at, 0, (at + 1) % length) for at in range(length)]
    if dice.chance(40):
        ring.pop()
    return drafted(dice, states, letters, ring + random_moves(dice, letters, states, states, 25))


def ring(dice, letters):
    """One way round, with a few moves besides."""
    states = dice.between(1, 9)
    moves = [(at, some_event(dice, letters, 10), (at + 1) % states) for at in range(states)]
    return drafted(dice, states, letters, moves + random_moves(dice, letters, states, dice.below(3), 20))


def far_states(dice, letters):
    """State numbers of two bytes, whose order by bytes is another than by numbers."""
    states = dice.pick([257, 300, 512, 768, 1023, 1024])
    marks = [mark for mark in (0, 1, 2, 255, 256, 257, 511, 512, 767, 1022, 1023) if mark < states]
    count = dice.between(1, 10)
    moves = [(dice.pick(marks), some_event(dice, letters, 15), dice.pick(marks)) for _ in range(count)]
    return Draft(states, letters.events, dice.pick(marks), without_loops(moves))


def remembering(dice, letters, length):
    """A rule of length + 1 states and 2 to the power length nodes: was the event so many back the first one?"""
    one, other = dice.pick([letters.palette[:2], letters.palette[-2:]])
    moves = [(0, one, 0), (0, other, 0), (0, one, 1)]
    moves += [(at, event, at + 1) for at in range(1, length) for event in (one, other)]
    return Draft(length + 1, letters.events, 0, moves)


def long_chain(letters, states, one_more):
    """A rule with as many nodes as states, or one node more: a set of two states that are nodes already."""
    one, other = letters.palette[:2]
    last, end = states - 1, states - 2
    moves = [(at, one, at + 1) for at in range(end)] + [(1, other, last)]
    if one_more:
        moves += [(0, other, end), (0, other, last)]
    return Draft(states, letters.events, 0, moves)


def grown(dice, letters):
    """Every state is reached: each is led to from an earlier one, and there are moves besides."""
    states = dice.between(2, 10)
    moves = [(dice.below(state), some_event(dice, letters, 12), state) for state in range(1, states)]
    moves += random_moves(dice, letters, states, dice.below(states + 1), 8)
    return Draft(states, letters.events, 0, without_loops(moves))


SHAPES = [(sparse, 16), (dense, 20), (silent_cycles, 14), (ring, 16), (grown, 34)]


def small_table(dice, letters):
    """A table of some shape; mostly one whose start can do something."""
    for _ in range(3):
        draft = dice.weighted(SHAPES)(dice, letters)
        if any(move[0] == draft.start for move in draft.moves):
            break
    return draft


# Flows near to a rule


def remove_move(dice, flow, _letters):
    if flow.moves:
        flow.moves.remove(dice.pick(flow.moves))
    return flow


def add_move(dice, flow, letters):
    flow.moves += random_moves(dice, letters, flow.states, 1, 15)
    return flow


def unfold(dice, flow, _letters):
    """Two copies of each state; each move leads to either copy or to both."""
    moves = []
    for origin, event, target in flow.moves:
        for copy in (0, 1):
            for twin in dice.pick([(0,), (1,), (0, 1)]):
                moves.append((2 * origin + copy, event, 2 * target + twin))
    flow.states, flow.start, flow.moves = 2 * flow.states, 2 * flow.start + dice.below(2), moves
    return flow


def hesitate(dice, flow, _letters):
    """One move gets a state on its way, left silently."""
    if flow.moves:
        origin, event, target = dice.pick(flow.moves)
        flow.moves.remove((origin, event, target))
        flow.moves += [(origin, event, flow.states), (flow.states, 0, target)]
        flow.states += 1
    return flow


def decide_silently(dice, flow, _letters):
    """One state hands its visible moves out to two new ones, between which it chooses silently."""
    state = dice.below(flow.states)
    mine = [move for move in flow.moves if move[0] == state and move[1] != 0]
    rest = [move for move in flow.moves if move not in mine]
    for origin, event, target in mine:
        rest.append((flow.states + dice.below(2), event, target))
    flow.moves = rest + [(state, 0, flow.states), (state, 0, flow.states + 1)]
    flow.states += 2
    return flow


EDITS = [(remove_move, 25), (add_move, 25), (unfold, 20), (hesitate, 15), (decide_silently, 15)]


def settled(flow):
    """The same table with its moves in order again, each once, and no silent loop."""
    return Draft(flow.states, flow.events, flow.start, without_loops(flow.moves))


def near(dice, rule, letters):
    flow = rule.copy()
    for _ in range(dice.weighted([(0, 10), (1, 40), (2, 30), (3, 20)])):
        flow = settled(dice.weighted(EDITS)(dice, flow, letters))
    return flow


def looser(dice, rule, letters):
    """A rule that allows more than this one, most often: more moves, and more refusals."""
    for _ in range(dice.between(1, 3)):
        edit = dice.pick([add_move, hesitate, decide_silently, decide_silently])
        rule = settled(edit(dice, rule.copy(), letters))
    return rule


def determined(rule):
    """The flow whose states are the rule's nodes: it has just the rule's traces. The rule itself if it has too many."""
    try:
        nodes = rhythmoxa.Nodes(rule.table())
    except rhythmoxa.Refused:
        return rule
    moves = [
        (node, event, nodes.number[target])
        for node, steps in enumerate(nodes.next)
        for event, target in steps.items()
    ]
    return Draft(len(nodes.sets), rule.events, 0, moves)


def round_by(event, length, step=1):
    """The moves that go round a ring of so many places by one event."""
    return [(at * step, event, (at + 1) % length * step) for at in range(length)]


def late_trace_fault(dice, rule_length, flow_length):
    """The rule allows 2 everywhere but at one place, the flow does 2 at one place only."""
    gap, place = dice.below(rule_length), dice.below(flow_length)
    allowed = [(at, 2, at) for at in range(rule_length) if at != gap]
    rule = Draft(rule_length, 2, 0, round_by(1, rule_length) + allowed)
    return rule, Draft(flow_length, 2, 0, round_by(1, flow_length) + [(place, 2, place)])


def late_refusal_fault(dice, rule_length, flow_length):
    """The rule may refuse 2 everywhere but at one place, the flow refuses 2 at one place only."""
    gap, place = dice.below(rule_length), dice.below(flow_length)
    moves = round_by(1, rule_length, 2) + [(2 * at, 2, 2 * at) for at in range(rule_length)]
    for at in range(rule_length):
        if at != gap:
            moves += [(2 * at, 0, 2 * at + 1), (2 * at + 1, 1, (at + 1) % rule_length * 2)]
    rule = Draft(2 * rule_length, 2, 0, moves)
    offered = [(at, 2, at) for at in range(flow_length) if at != place]
    return rule, Draft(flow_length, 2, 0, round_by(1, flow_length) + offered)


def two_rings(dice):
    """Rule and flow go round rings of different lengths: a fault needs both at the right place, and is late."""
    lengths = dice.pick([(1, 9), (2, 3), (3, 4), (5, 3), (4, 7), (5, 7), (6, 4), (9, 8)])
    rule, flow = dice.pick([late_trace_fault, late_refusal_fault])(dice, *lengths)
    if dice.chance(30):
        flow = settled(dice.weighted(EDITS)(dice, flow, Alphabet(2, [1, 2])))
    return rule, flow


def choosing(letters, places):
    """Goes round its places by any event; at each it may choose silently among stable states with these offers."""
    width = 1 + max(map(len, places))
    moves = []
    for at, choices in enumerate(places):
        here, there = at * width, (at + 1) % len(places) * width
        moves += [(here, event, there) for event in letters.palette]
        for choice, offers in enumerate(choices, here + 1):
            moves.append((here, 0, choice))
            moves += [(choice, event, there) for event in offers]
    return Draft(len(places) * width, letters.events, 0, moves)


def some_offers(dice, letters, share):
    return {event for event in letters.palette if dice.chance(share)}


def choosing_pair(dice, letters):
    """A rule and a flow with the same traces that differ in what they may refuse, here a little and there a lot."""
    rule_places, flow_places = [], []
    for _ in range(dice.between(1, 3)):
        demands = [some_offers(dice, letters, 40) for _ in range(dice.between(1, 3))]
        answers = [dice.pick(demands) | some_offers(dice, letters, 25) for _ in range(dice.between(1, 2))]
        if dice.chance(50):
            answers += [some_offers(dice, letters, 60) for _ in range(dice.between(1, 2))]
        rule_places.append(demands)
        flow_places.append(answers)
    return choosing(letters, rule_places), choosing(letters, flow_places)
