"""The second program's own tests: python3 second/test_cases.py prints 'N passed, M failed' as its last line.

Document 01's cases 1 to 13, every refusal alone and every two that can apply at once, buffers, and the check against
the definitions tried trace by trace.
"""

import os
import sys
import tempfile
import traceback
from itertools import combinations, product

import calls
import generate
import refusals
import report
import rhythmoxa
import shapes
import stored
from dice import Dice
from drafts import Draft
from large import full_table, going_round, overfull_table
from rhythmoxa import CALL, LEAST_16, LEAST_64, RULE
from trial import CHECKS, DIV, LOOP, R, ROUND, STOP, table

JUNK = bytes(range(160, 190))


def check(rule, flow, mode, buffer=JUNK):
    return rhythmoxa.check(rule, flow, mode, LEAST_16, LEAST_64, buffer)


def expect(outcome, answer, buffer):
    assert outcome == (answer, buffer), f"{outcome} is not {(answer, buffer)}"


def expect_case(number, mode, answer, trace=b""):
    """The case's answer, its trace at the front of the buffer, and the bytes after it as they were."""
    expect(check(*CHECKS[number], mode), answer, trace + JUNK[len(trace) :])


# Document 01's cases


def case_1():
    for mode in (0, 1):
        expect_case(1, mode, ("passes", 3, 3))


def case_2():
    for mode in (0, 1):
        expect_case(2, mode, ("trace-fault", 2), bytes([1, 3]))


def case_3():
    expect_case(3, 0, ("passes", 3, 2))
    expect_case(3, 1, ("refusal-fault", 1, 0), bytes([1]))


def case_4():
    expect_case(4, 0, ("passes", 3, 1))
    expect_case(4, 1, ("refusal-fault", 0, 0))


def case_5():
    for mode in (0, 1):
        expect_case(5, mode, ("passes", 3, 2))


def case_6():
    expect_case(6, 0, ("passes", 1, 1))
    expect_case(6, 1, ("refusal-fault", 0, 0))


def case_7():
    for mode in (0, 1):
        expect_case(7, mode, ("passes", 2, 2))


def case_8():
    for mode in (0, 1):
        expect_case(8, mode, ("passes", 2, 2))


def case_9():
    for mode in (0, 1):
        expect_case(9, mode, ("trace-fault", 1), bytes([2]))


def case_10():
    data = bytes.fromhex("0900 0300 0000 0300 0c00 0000  0000 0100 0400  0400 0200 0800  0800 0300 0000")
    assert len(data) == 30
    expect(rhythmoxa.join(R, R, 0b1110, JUNK), ("written", 30), data)
    expect(rhythmoxa.join(R, R, 0b1110, JUNK + b"after"), ("written", 30), data + b"after")
    expect(rhythmoxa.join(R, R, 0b1110, JUNK[1:]), ("refused", CALL, 18), JUNK[1:])


def case_11():
    data = bytes.fromhex("0100 0100 0000 0100 0c00 0000  0000 0100 0000")
    expect(rhythmoxa.join(LOOP, LOOP, 0, JUNK), ("written", 18), data + JUNK[18:])


WATCHDOG_OF_R = bytes.fromhex(
    "0400 0400 0000 0a00 0c00 0000"
    "0000 0100 0100  0000 0200 0300  0000 0300 0300"
    "0100 0100 0300  0100 0200 0200  0100 0300 0300"
    "0200 0100 0300  0200 0200 0300  0200 0300 0000"
    "0300 0400 0300"
)


def case_12():
    assert len(WATCHDOG_OF_R) == 72
    buffer = bytes(range(100, 180))
    expect(rhythmoxa.watchdog(R, LEAST_16, LEAST_64, buffer), ("written", 72), WATCHDOG_OF_R + buffer[72:])
    expect(rhythmoxa.watchdog(R, LEAST_16, LEAST_64, buffer[:72]), ("written", 72), WATCHDOG_OF_R)
    expect(rhythmoxa.watchdog(R, LEAST_16, LEAST_64, buffer[:71]), ("refused", CALL, 18), buffer[:71])


def case_13_limit():
    tables = {nodes: [draft.data() for draft in going_round(nodes, 1024, gap=False)] for nodes in (16, 17)}
    expect(check(*tables[16], 0), ("passes", 16, 16384), JUNK)
    expect(check(*tables[17], 0), ("refused", CALL, 13), JUNK)


def case_13_trace():
    rule = table([(at, 1, at + 1) for at in range(4)], events=1)
    for mode in (0, 1):
        expect(check(rule, LOOP, mode, JUNK[:5]), ("trace-fault", 5), bytes([1] * 5))
        expect(check(rule, LOOP, mode, JUNK[:4]), ("refused", CALL, 14), JUNK[:4])


def case_longest_trace():
    """The reported trace may be as long as nodes × flow states: 16,384."""
    tables = [draft.data() for draft in going_round(16, 1024, gap=True)]
    answer, buffer = check(*tables, 0, bytes(16384))
    assert answer == ("trace-fault", 16384) and 0 not in buffer
    answer, buffer = check(*tables, 1, bytes(16384))
    assert answer == ("refusal-fault", 16383, 4) and buffer.index(0) == 16383
    expect(check(*tables, 0, bytes(16383)), ("refused", CALL, 14), bytes(16383))


# Answers that document 01's words decide beyond its cases


def test_short_form_is_mode_0():
    for rule, flow in CHECKS.values():
        assert rhythmoxa.check_short(rule, flow, LEAST_16, LEAST_64, JUNK) == check(rule, flow, 0)


def test_no_events():
    """E = 0: one trace, one node."""
    still, silent = table([], events=0), table([(0, 0, 1), (1, 0, 2)], events=0)
    for mode in (0, 1):
        expect(check(still, silent, mode), ("passes", 1, 3), JUNK)
    expect(check(table([(0, 0, 1), (1, 0, 0)], events=0), still, 1), ("refusal-fault", 0, 0), JUNK)
    alarm = bytes.fromhex("0200 0100 0000 0100 0c00 0000  0100 0100 0100")
    expect(rhythmoxa.watchdog(still, LEAST_16, LEAST_64, JUNK), ("written", 18), alarm + JUNK[18:])


def test_stored_calls():
    for error, call, answer in stored.stored():
        assert calls.answer(call) == answer, f"{error}: {calls.answer(call)} is not {answer}"


def test_join_with_different_events():
    """An event that the other table lacks and that is shared cannot happen; the silent one happens by either."""
    first, second = table([(0, 0, 1), (1, 2, 0)], events=2), table([(0, 1, 0)], events=1)
    answer, buffer = rhythmoxa.join(first, second, 0b100, bytes(60))
    joined = rhythmoxa.opened(buffer[: answer[1]], RULE)
    assert joined == (2, 2, 0, [(0, 0, 1), (0, 1, 0), (1, 1, 1)])
    answer, buffer = rhythmoxa.join(first, second, 0, bytes(60))
    joined = rhythmoxa.opened(buffer[: answer[1]], RULE)
    assert joined == (2, 2, 0, [(0, 0, 1), (0, 1, 0), (1, 1, 1), (1, 2, 0)])


def test_rule_of_64_nodes():
    letters = shapes.Alphabet(2, [1, 2])
    anything = table([(0, 1, 0), (0, 2, 0)], events=2)
    for length, answer in ((6, ("passes", 64, 64)), (7, ("refused", RULE, 12)), (60, ("refused", RULE, 12))):
        rule = shapes.remembering(Dice(1), letters, length).data()
        expect(check(rule, anything, 0), answer, JUNK)


# Reader and writer


def test_round_trips():
    """Each undoes the other, on drawn tables, on the full one and on the trial tables."""
    dice = Dice(11)
    drafts = [shapes.small_table(dice, shapes.alphabet(dice)) for _ in range(300)]
    drafts += [shapes.far_states(dice, shapes.alphabet(dice)) for _ in range(50)] + [full_table()]
    datas = [draft.data() for draft in drafts] + [R, STOP, DIV, LOOP]
    for data in datas:
        given = [9] * (3 * 4096 + 2)
        answer, numbers = rhythmoxa.read(data, given)
        word, states, events, start, count = answer
        assert word == "read" and numbers[3 * count :] == given[3 * count :]
        answer, buffer = rhythmoxa.write(states, events, start, numbers[: 3 * count], data[::-1] + b"rest")
        assert answer == ("written", len(data)) and buffer == data + b"rest"


def test_reader_fills_list():
    expect(rhythmoxa.read(R, [7] * 11), ("read", 3, 3, 0, 3), [0, 1, 1, 1, 2, 2, 2, 3, 0, 7, 7])
    expect(rhythmoxa.read(R, [7] * 9), ("read", 3, 3, 0, 3), [0, 1, 1, 1, 2, 2, 2, 3, 0])
    expect(rhythmoxa.read(R, [7] * 8), ("refused", CALL, 18), [7] * 8)
    expect(rhythmoxa.read(STOP, []), ("read", 1, 3, 0, 0), [])


def test_writer_at_the_limit_of_moves():
    numbers = full_table().numbers()
    room = bytes(24588)
    assert rhythmoxa.write(1024, 63, 0, numbers, room)[0] == ("written", 24588)
    for more, refusal in ((1, 3), (2, 3), (3, 2)):
        expect(rhythmoxa.write(1024, 63, 0, numbers + [5] * more, room), ("refused", RULE, refusal), room)


def test_reader_at_the_limits():
    assert rhythmoxa.read(full_table().data(), [0] * 12288)[0] == ("read", 1024, 63, 1023, 4096)
    assert rhythmoxa.read(overfull_table().data(), [0] * 12291)[0] == ("refused", RULE, 2)


def test_moves_of_one_state():
    assert rhythmoxa.moves_of(R, 1) == R[18:24]
    data = full_table().data()
    assert rhythmoxa.moves_of(data, 300) == data[12 + 24 * 300 : 12 + 24 * 301]
    for state in (3, 4, 256, 65535):
        assert rhythmoxa.moves_of(R, state) == b""
    assert rhythmoxa.moves_of(STOP, 0) == b""
    assert rhythmoxa.moves_of(R + b"\0", 1) == b""
    assert rhythmoxa.moves_of(R[:11], 1) == b""


# Refusals


def test_refusals_in_order():
    """Each alone, and the first of each two, in every call; the buffer stays as it was."""
    for call, (whose, number) in refusals.refusal_calls():
        words = calls.answer(call).split(" ")
        assert words[:3] == ["refused", str(whose), str(number)] and words[-1] == "same", (call, words)


def test_calls_to_be_spoiled_are_good():
    for call in refusals.unspoiled_calls():
        assert not calls.answer(call).startswith("refused"), call


def test_join_at_its_limits():
    still = Draft(1, 1, 0, [])
    for states, answer in ((1024, ("written", 12)), (1025, ("refused", RULE, 2))):
        assert rhythmoxa.join(Draft(states, 1, 0, []).data(), still.data(), 0, JUNK)[0] == answer
    for states, answer in ((32, ("written", 12)), (33, ("refused", CALL, 16))):
        assert rhythmoxa.join(Draft(32, 1, 0, []).data(), Draft(states, 1, 0, []).data(), 0, JUNK)[0] == answer
    full, room = full_table().data(), bytes(24588)
    assert rhythmoxa.join(full, still.data(), 0, room)[0] == ("written", 24588)
    assert rhythmoxa.join(full, Draft(1, 5, 0, [(0, 5, 0)]).data(), 0, room)[0] == ("refused", CALL, 17)


def test_17_counts_a_move_once():
    """32 loops by 3 in each table make 1,024 moves twice; 96 moves besides make 3,072."""
    loops = [(state, 3, state) for state in range(32)]
    first = Draft(32, 5, 0, loops + shapes.round_by(1, 32) + shapes.round_by(4, 32)[:16])
    second = Draft(32, 5, 0, loops + shapes.round_by(2, 32) + shapes.round_by(5, 32)[:16])
    assert rhythmoxa.join(first.data(), second.data(), 0, bytes(24588))[0] == ("written", 24588)
    second.moves.append((31, 5, 0))
    assert rhythmoxa.join(first.data(), second.data(), 0, bytes(24588))[0] == ("refused", CALL, 17)


def test_short_workspaces():
    """11 for either workspace; longer ones are as good as the shortest."""
    for lengths in ((LEAST_16 - 1, LEAST_64), (LEAST_16, LEAST_64 - 1), (0, 0), (LEAST_64, LEAST_16)):
        refused = ("refused", CALL, 11)
        expect(rhythmoxa.check(R, R, 0, *lengths, JUNK), refused, JUNK)
        expect(rhythmoxa.check_short(R, R, *lengths, JUNK), refused, JUNK)
        expect(rhythmoxa.watchdog(R, *lengths, JUNK * 4), refused, JUNK * 4)
    expect(rhythmoxa.check(R, R, 0, LEAST_16 + 1, LEAST_64 + 1, JUNK), ("passes", 3, 3), JUNK)


def test_modes():
    for mode in (2, 255, 256, 257, 65535):
        expect(check(R, R, mode), ("refused", CALL, 8), JUNK)


def test_rule_of_64_states():
    for states, answer in ((64, ("passes", 3, 3)), (65, ("refused", RULE, 10))):
        expect(check(Draft(states, 3, 0, ROUND).data(), R, 1), answer, JUNK)
        dog = rhythmoxa.watchdog(Draft(states, 3, 0, ROUND).data(), LEAST_16, LEAST_64, bytes(72))
        assert dog[0] == (("written", 72) if states == 64 else answer)
    expect(check(R, Draft(65, 3, 0, ROUND).data(), 1), ("passes", 3, 3), JUNK)


def test_watchdog_at_62_and_63_events():
    for events, answer in ((62, ("written", 12 + 6 * (3 * 62 + 1))), (63, ("refused", RULE, 19))):
        assert rhythmoxa.watchdog(table(ROUND, events), LEAST_16, LEAST_64, bytes(2000))[0] == answer


def test_limits_of_a_table():
    """Refusal 2 by each of its three numbers, each side of the limit; the length fits where it can."""
    for states, events, answer in ((0, 3, 2), (1024, 3, 0), (1025, 3, 2), (1, 63, 0), (1, 64, 2), (256, 0, 0)):
        outcome, _ = rhythmoxa.read(Draft(states, events, 0, []).data(), [])
        assert outcome == (("refused", RULE, answer) if answer else ("read", states, events, 0, 0))
    for count, answer in ((4096, 3), (4097, 2), (65535, 2)):
        draft = Draft(3, 3, 0, ROUND)
        draft.count_error = count - 3
        assert rhythmoxa.read(draft.data(), [])[0] == ("refused", RULE, answer)


def test_names_in_a_table():
    """4 and 5 at their limits, and by numbers whose low byte alone would pass."""

    def refused(start, *moves):
        draft = Draft(3, 3, start, moves)
        return rhythmoxa.read(draft.data(), [0] * 9)[0]

    assert refused(2, (2, 3, 2)) == ("read", 3, 3, 2, 1)
    for start in (3, 256, 65535):
        assert refused(start, (0, 1, 3)) == ("refused", RULE, 4)
    for move in ((3, 1, 0), (0, 1, 3), (0, 4, 0), (256, 1, 0), (0, 1, 256), (0, 256, 0), (0, 257, 0)):
        assert refused(0, (0, 1, 1), move) == ("refused", RULE, 5)


def test_framing_of_a_table():
    """Refusal 3 by each of its reasons."""
    for place in (8, 9, 10, 11):
        bent = bytearray(R)
        bent[place] ^= 1
        assert rhythmoxa.read(bytes(bent), [0] * 9)[0] == ("refused", RULE, 3)
    for data in (R + b"\0", R[:-1], R[:-6], R[:12], R + R[-6:]):
        assert rhythmoxa.read(data, [0] * 9)[0] == ("refused", RULE, 3)
    for length in range(12):
        assert rhythmoxa.read(R[:length], [0] * 9)[0] == ("refused", RULE, 1)


def test_late_refusals_beat_early_ones():
    """5 over the whole table before 6, and 6 before 7, wherever they stand."""

    def refused(moves):
        draft = Draft(3, 3, 0, [])
        draft.moves = moves
        return rhythmoxa.read(draft.data(), [0] * 9)[0]

    assert refused([(1, 1, 1), (0, 1, 1), (2, 4, 0)]) == ("refused", RULE, 5)
    assert refused([(0, 0, 0), (2, 1, 1), (1, 1, 1)]) == ("refused", RULE, 6)
    assert refused([(0, 0, 0), (2, 1, 3)]) == ("refused", RULE, 5)
    assert refused([(0, 1, 1), (0, 1, 1)]) == ("refused", RULE, 6)
    assert refused([(0, 0, 1), (2, 0, 2)]) == ("refused", RULE, 7)


# The definitions, tried trace by trace on tables so small that every trace up to the longest reported one is tried


def states_after(moves, start, trace):
    """States that some path with this trace leads to: a path is extended by one move at a time."""
    reached = {(start, 0)}
    while True:
        more = set(reached)
        for state, done in reached:
            for origin, event, target in moves:
                if origin == state and event == 0:
                    more.add((target, done))
                elif origin == state and done < len(trace) and event == trace[done]:
                    more.add((target, done + 1))
        if more == reached:
            return {state for state, done in reached if done == len(trace)}
        reached = more


def stable_offers_after(draft, trace):
    offers = []
    for state in states_after(draft.moves, draft.start, trace):
        mine = {event for origin, event, _ in draft.moves if origin == state}
        if 0 not in mine:
            offers.append(mine)
    return offers


def may_refuse(draft, trace, refused):
    return any(not offers & refused for offers in stable_offers_after(draft, trace))


def fault_after(rule, flow, trace, mode):
    """The fault that this trace is, by the words of the definition; None if it is none."""
    if not states_after(flow.moves, flow.start, trace):
        return None
    if not states_after(rule.moves, rule.start, trace):
        has_shorter = trace and states_after(rule.moves, rule.start, trace[:-1])
        return ("trace-fault", len(trace)) if has_shorter else None
    demands = stable_offers_after(rule, trace)
    shown = [
        sum(2**event for event in offers)
        for offers in stable_offers_after(flow, trace)
        if not any(demand <= offers for demand in demands)
    ]
    return ("refusal-fault", len(trace), min(shown)) if mode == 1 and shown else None


def passes_by_words(rule, flow, mode, traces):
    """Each trace of the flow is a trace of the rule; in mode 1 each stable failure is one of the rule."""
    subsets = [set(some) for size in range(flow.events + 1) for some in combinations(range(1, flow.events + 1), size)]
    for trace in traces:
        if states_after(flow.moves, flow.start, trace) and not states_after(rule.moves, rule.start, trace):
            return False
        if mode == 1:
            for refused in subsets:
                if may_refuse(flow, trace, refused) and not may_refuse(rule, trace, refused):
                    return False
    return True


def pairs_by_words(rule, flow, traces):
    pairs = set()
    for trace in traces:
        node = frozenset(states_after(rule.moves, rule.start, trace))
        if node:
            pairs |= {(node, state) for state in states_after(flow.moves, flow.start, trace)}
    return len(pairs)


def first_fault_by_words(rule, flow, mode, traces):
    faults = ((fault_after(rule, flow, trace, mode), trace) for trace in traces)
    return next(((fault, trace) for fault, trace in faults if fault), None)


def tiny(dice, events, most_states):
    states = dice.between(1, most_states)
    everything = product(range(states), range(events + 1), range(states))
    share = dice.pick([20, 35, 50])
    moves = [move for move in everything if dice.chance(share)]
    return shapes.drafted(dice, states, shapes.Alphabet(events, []), moves)


def agrees_with_the_words(rule, flow, mode, traces):
    """Compares one check with the definitions, and gives its answer."""
    answer, buffer = check(rule.data(), flow.data(), mode)
    found = first_fault_by_words(rule, flow, mode, traces)
    assert passes_by_words(rule, flow, mode, traces) == (found is None)
    if found:
        fault, trace = found
        assert answer == fault and buffer[: len(trace)] == bytes(trace)
    else:
        assert answer[0] == "passes" and answer[2] == pairs_by_words(rule, flow, traces)
    return answer


def test_check_against_the_definitions():
    """k rule states make at most 2 to the power k, less one, nodes: no reported trace is longer than those tried."""
    dice = Dice(5)
    kinds = set()
    for events, most_states, rounds in ((1, 3, 150), (2, 2, 150)):
        longest = (2**most_states - 1) * most_states
        traces = [trace for length in range(longest + 1) for trace in product(range(1, events + 1), repeat=length)]
        for _ in range(rounds):
            rule, flow = tiny(dice, events, most_states), tiny(dice, events, most_states)
            for mode in (0, 1):
                answer = agrees_with_the_words(rule, flow, mode, traces)
                kinds.add((mode, answer[0], min(answer[1], 2)))
    assert {(1, "refusal-fault", 2), (1, "trace-fault", 2), (0, "trace-fault", 2), (1, "passes", 2)} <= kinds


def test_both_ways_of_going_on_agree():
    """Telling all pairs of sets apart, none, or a few changes no answer."""
    dice = Dice(6)
    for _ in range(400):
        letters = shapes.Alphabet(2, [1, 2])
        rule, flow = shapes.small_table(dice, letters), shapes.small_table(dice, letters)
        flow = dice.pick([flow, shapes.near(dice, rule, letters)])
        for mode in (0, 1):
            given = (rule.data(), flow.data(), mode, LEAST_16, LEAST_64, bytes(200))
            assert len({rhythmoxa.check(*given, kept=kept) for kept in (0, 9, 10**9)}) == 1


def test_many_sets_of_flow_states():
    """2 to the power 60 sets of flow states, and still an answer: see Met."""
    flow = shapes.remembering(Dice(1), shapes.Alphabet(2, [1, 2]), 60).data()
    expect(check(table([(0, 1, 0), (0, 2, 0)], events=2), flow, 0), ("passes", 1, 61), JUNK)


def test_watchdog_raises_alarm_exactly_at_trace_faults():
    """Joined with a flow on 1 to E, event E + 1 can occur exactly when the flow has a trace fault."""
    dice = Dice(8)
    seen = set()
    for _ in range(150):
        letters = shapes.Alphabet(3, [1, 2, 3])
        rule = shapes.small_table(dice, letters)
        flow = shapes.near(dice, rule, letters)
        faulty = check(rule.data(), flow.data(), 0, bytes(500))[0][0] == "trace-fault"
        answer, dog = rhythmoxa.watchdog(rule.data(), LEAST_16, LEAST_64, bytes(24588))
        answer, joined = rhythmoxa.join(dog[: answer[1]], flow.data(), 0b1110, bytes(24588))
        if answer[0] == "written":
            walker = rhythmoxa.Walker(rhythmoxa.opened(joined[: answer[1]], RULE))
            assert faulty == (4 in events_that_occur(walker))
            seen.add(faulty)
    assert seen == {True, False}


def events_that_occur(walker):
    """All events of a table's traces."""
    sets, events = [walker.at_first()], set()
    for states in sets:
        for event, target in walker.steps(states):
            events.add(event)
            if target not in sets:
                sets.append(target)
    return events


# The report


def report_of(rule, flow):
    with tempfile.TemporaryDirectory() as folder:
        for name, data in (("rule.tbl", rule), ("flow.tbl", flow)):
            if data is not None:
                with open(os.path.join(folder, name), "wb") as file:
                    file.write(data)
        return report.report(folder)


def test_report_lines():
    assert report_of(*CHECKS[3]) == "traces holds 3 2\nfailures refusal-fault 1 1 offers 0\n"
    assert report_of(*CHECKS[2]) == "traces trace-fault 2 1 3\nfailures trace-fault 2 1 3\n"
    assert report_of(*CHECKS[4]) == "traces holds 3 1\nfailures refusal-fault 0 offers 0\n"
    wide = table([(0, 1, 0), (0, 62, 0), (0, 63, 0)], events=63), table([(0, 62, 0), (0, 63, 0)], events=63)
    assert report_of(*wide) == "traces holds 1 1\nfailures refusal-fault 0 offers 2 62 63\n"
    assert report_of(R, LOOP) == "traces refused 0 9\nfailures refused 0 9\n"


def test_report_files():
    both = "traces refused {0} {1}\nfailures refused {0} {1}\n"
    assert report_of(None, None) == both.format(1, 1)
    assert report_of(R, None) == both.format(2, 1)
    assert report_of(R, b"") == both.format(2, 1)
    assert report_of(overfull_table().data(), R) == both.format(1, 1)
    assert report_of(full_table().data(), full_table().data()) == both.format(1, 10)
    assert report_of(R, R + b"\0") == both.format(2, 3)


# The protocol and the generator


def test_protocol():
    r, lent = R.hex(), "32768 128 9"
    golden = {
        f"read {STOP.hex()} -": "read 1 3 0 0 same",
        f"read {LOOP.hex()} 000900090009000a": "read 1 1 0 1 000000010000000a",
        f"read {R.hex()} 0009": "refused 0 18 same",
        f"write 1 1 0 000000010000 {'ee' * 20}": f"written 18 {LOOP.hex()}eeee",
        "write 1 1 0 0000 -": "refused 1 3 same",
        f"moves {r} 1": "part 010002000200",
        f"moves {r} 3": "part -",
        f"check {r} {r} 0 {lent} -": "passes 3 3 zero zero same",
        f"check {r} {STOP.hex()} 1 {lent} aa": "refusal-fault 0 0 zero zero same",
        f"check {r} {CHECKS[2][1].hex()} 1 {lent} aabbcc": "trace-fault 2 zero zero 0103cc",
        f"check {r} {r} 256 5 0 9 -": "refused 0 8 zero zero same",
        f"short {r} - {lent} -": "refused 2 1 zero zero same",
        f"join {LOOP.hex()} {LOOP.hex()} 0 {LOOP.hex()}": "written 18 same",
        f"dog {r} {lent} {'00' * 72}": f"written 72 zero zero {WATCHDOG_OF_R.hex()}",
    }
    for call, answer in golden.items():
        assert calls.answer(call) == answer, call


def case_of_the_readme():
    with open(os.path.join(os.path.dirname(os.path.abspath(__file__)), "README.md"), encoding="utf-8") as file:
        lines = file.read().split("\n")
    call = next(line for line in lines if line.startswith("check "))
    assert calls.answer(call) == lines[lines.index(call) + 1]
    assert call.split(" ")[1:3] == [data.hex() for data in CHECKS[3]]


# By call: its fields in the README's words
FIELDS = {
    "read": "table list",
    "write": "number number number list result",
    "moves": "table number",
    "check": "table table number len16 len64 number trace",
    "short": "table table len16 len64 number trace",
    "join": "table table set result",
    "dog": "table len16 len64 number result",
}
BOUNDS = {"table": 24600, "result": 24600, "trace": 16384, "list": 12300, "len16": 32800, "len64": 160}
BOUNDS.update({"number": 65535, "set": 2**64 - 1})


def size_of(kind, field):
    if kind in ("table", "result", "trace"):
        return len(calls.bytes_of(field))
    return len(calls.numbers_of(field)) if kind == "list" else int(field)


def keeps_bounds(call):
    verb, *fields = call.split(" ")
    kinds = FIELDS[verb].split(" ")
    return len(fields) == len(kinds) and all(size_of(*pair) <= BOUNDS[pair[0]] for pair in zip(kinds, fields))


def test_generator():
    """The same seed gives the same calls, they keep the README's bounds, and every answer and refusal occurs."""
    made = list(generate.calls_from(3, 3000, True))
    assert made == list(generate.calls_from(3, 3000, True))
    assert made[-1] != list(generate.calls_from(4, 3000, True))[-1]
    assert all(keeps_bounds(call) for call in made)
    assert all(len(call) < generate.LONGEST_SMALL for call in made[:3000])
    assert all(len(call) < generate.LONGEST for call in made[3000:])
    answers = [calls.answer(call).split(" ") for call in made]
    assert {int(words[2]) for words in answers if words[0] == "refused"} == set(range(1, 20))
    kinds = {"read", "written", "part", "passes", "trace-fault", "refusal-fault", "refused"}
    assert {words[0] for words in answers} == kinds


def main():
    tests = [test for name, test in sorted(globals().items()) if name.startswith(("case_", "test_"))]
    failed = 0
    for test in tests:
        try:
            test()
        except Exception:
            failed += 1
            print(f"{test.__name__} failed")
            traceback.print_exc()
    print(f"{len(tests) - failed} passed, {failed} failed")
    return 1 if failed else 0


if __name__ == "__main__":
    sys.exit(main())
