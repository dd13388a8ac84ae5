"""What the program `trial` (crate trial) prints, line by line, by the second program: `python3 second/expected.py`.

The calls are those of crates/trial/src, section by section in its order; every answer comes from rhythmoxa.py. A line
tells the answer, the content of a buffer that was written, and from where on the buffer holds what it held before.
"""

import rhythmoxa
from drafts import Draft
from rhythmoxa import LEAST_16, LEAST_64
from shapes import round_by
from trial import CHECKS, LOOP, R, STOP, DIV, table

JUNK = 167
JUNK_16 = 42919
MODE_WORDS = {0: "traces"}  # every other mode is told as failures
FLOW_2, FLOW_3, RULE_7, FLOW_7, FLOW_9 = (CHECKS[2][1], CHECKS[3][1], *CHECKS[7], CHECKS[9][1])
JOIN_10 = table([(0, 1, 4), (4, 2, 8), (8, 3, 0)])
FIT = (LEAST_16, LEAST_64)
DOG_12 = rhythmoxa.watchdog(R, *FIT, bytes(72))[1]

# Answers as they are told


def words(*fields):
    return " ".join(map(str, fields))


def kept(buffer, junk, length):
    """From where on the buffer is as it was, which is right after what was written."""
    assert all(place == junk for place in buffer[length:])
    return f"; kept from {length}"


def shortened(numbers, most, front, back):
    """All numbers, or the first and the last ones of many."""
    return [*numbers] if len(numbers) <= most else [*numbers[:front], "..", *numbers[-back:]]


def numbers_of(data):
    return [data[at] + 256 * data[at + 1] for at in range(0, len(data), 2)]


def told_line(mode, answer, buffer):
    """The report's line of an answer, without its line feed; of a long one its front and its end."""
    line = words(MODE_WORDS.get(mode, "failures"), *rhythmoxa.fields_after_mode(answer, buffer))
    return line if len(line) < 99 else f"{line[:40]} .. {line[-9:]}"


def told_table(data):
    return ":" + "".join(f" {n}" for n in shortened(numbers_of(data), 60, 6, 3))


def told_built(answer, buffer):
    if answer[0] == "refused":
        return f" {words(*answer)}" + kept(buffer, JUNK, 0)
    length = answer[1]
    return f" wrote {length}" + told_table(buffer[:length]) + kept(buffer, JUNK, length)


def told_read(answer, numbers):
    if answer[0] == "refused":
        return f" {words(*answer)}" + kept(numbers, JUNK_16, 0)
    given = 3 * answer[4]
    moves = "".join(f" {n}" for n in shortened(numbers[:given], 60, 3, 3))
    return f" {words(*answer)}:{moves}" + kept(numbers, JUNK_16, given)


# One call a line

ZERO = "; workspaces zero zero"


def junk(length):
    return bytes([JUNK]) * length


def check(about, rule, flow, mode, room=20, lent=FIT):
    answer, buffer = rhythmoxa.check(rule, flow, mode, *lent, junk(room))
    length = answer[1] if answer[0].endswith("fault") else 0
    return f"{about} {told_line(mode, answer, buffer)}" + kept(buffer, JUNK, length) + ZERO


def both(about, rule, flow):
    return [check(about, rule, flow, mode) for mode in (0, 1)]


def check_short(about, rule, flow):
    answer, buffer = rhythmoxa.check_short(rule, flow, *FIT, junk(20))
    assert answer[0] == "passes"
    return f"{about} {told_line(0, answer, buffer)}" + kept(buffer, JUNK, 0) + ZERO


def read(about, data, room):
    return about + told_read(*rhythmoxa.read(data, [JUNK_16] * room))


def write(about, head, numbers, room):
    return about + told_built(*rhythmoxa.write(*head, numbers, junk(room)))


def moves_of(about, data, state):
    return f"{about} part {state}" + told_table(rhythmoxa.moves_of(data, state))


def join(about, first, second, shared, room):
    return about + told_built(*rhythmoxa.join(first, second, shared, junk(room)))


def watchdog(about, rule, room, lent=FIT):
    return about + told_built(*rhythmoxa.watchdog(rule, *lent, junk(room))) + ZERO


# Tables


def header(states, events, start=0):
    return Draft(states, events, start, []).data()


def ring_moves(states, each, count):
    """The first moves of a ring in which each state leads to the next by the events 1 to each."""
    moves = [(at, event, (at + 1) % states) for at in range(states) for event in range(1, each + 1)]
    return moves[:count]


def ring(states, each, count):
    return Draft(states, each, 0, ring_moves(states, each, count)).data()


def chain_of_64(count):
    moves = [(at, 1, at + 1) for at in range(63)] + [(62, 2, 62), (62, 2, 63)]
    return Draft(64, 2, 0, moves[:count]).data()


def ring_of_1023():
    return Draft(1023, 2, 0, round_by(1, 1023)[:-1] + [(1022, 2, 0)]).data()


def changed(data, *changes):
    data = bytearray(data)
    for place, byte in changes:
        data[place] = byte
    return bytes(data)


OUTSIDE = (1, 5)
MISFRAMED = (8, 13)
ASTRAY = (4, 3)
MISNAMED = (28, 3)
DISORDERED = (12, 2)
SILENT_LOOP = ((14, 0), (16, 0))

DAMAGED = {
    1: R[:11],
    2: changed(R, OUTSIDE),
    3: changed(R, MISFRAMED),
    4: changed(R, ASTRAY),
    5: changed(R, MISNAMED),
    6: changed(R, DISORDERED),
    7: changed(R, *SILENT_LOOP),
}


# Sections


def marked():
    for case in range(1, 10):
        yield from both(f"case {case}:", *CHECKS[case])
        if case in (3, 6):
            yield check_short(f"case {case}, short form:", *CHECKS[case])
    yield join("case 10:", R, R, 14, 40)
    yield join("case 11:", LOOP, LOOP, 0, 40)
    yield watchdog("case 12:", R, 80)


def limits_of_a_table():
    for head in (1, 0, 0), (0, 0, 0), (1024, 63, 1023), (1025, 63, 1023), (1024, 64, 1023), (1024, 63, 1024):
        yield read(f"header {words(*head)}, reader:", header(*head), 3)
        yield write(f"header {words(*head)}, writer:", head, [], 15)
    seconds = ((2, 3, 2), (3, 3, 2), (2, 4, 2), (2, 3, 3), (1, 2, 2), (1, 2, 1), (1, 1, 2), (2, 0, 1), (2, 0, 2))
    for second in seconds:
        yield write(f"moves 1 2 1 and {words(*second)}, writer:", (3, 3, 0), [1, 2, 1, *second], 24)
    numbers = [number for move in ring_moves(1024, 5, 4100) for number in move]
    for length in (12288, 12289, 12290, 12291):
        yield write(f"list of {length} numbers, writer:", (1024, 5, 0), numbers[:length], 24600)
    full = ring(1024, 4, 4096)
    for length in (12288, 12287):
        yield read(f"table of 4096 moves, {length} numbers:", full, length)
    yield moves_of("table of 4096 moves:", full, 1023)
    yield read("table of 4097 moves:", changed(bytes(24594), (0, 1), (6, 1), (7, 16), (8, 12)), 12300)
    yield moves_of("DIV:", DIV, 1)
    for state in range(4):
        yield moves_of("the flow of case 2:", FLOW_2, state)


def limits_of_a_check():
    for nodes in (16, 17):
        yield from both(f"case 13, {nodes} nodes and 1024 flow states:", ring(nodes, 1, nodes), ring(1024, 1, 1024))
    for room in (5, 4):
        yield check(f"case 13, a trace of 5 in {room} bytes:", ring(5, 1, 4), LOOP, 0, room)
    for room in (16368, 16367):
        yield check(f"a trace of 16368 in {room} bytes:", ring(16, 2, 31), ring_of_1023(), 0, room)
    for states in (64, 65):
        yield from both(f"rule of {states} states:", header(states, 3), STOP)
        yield watchdog(f"rule of {states} states:", header(states, 3), 40)
    for nodes, count in (64, 63), (64, 64), (65, 65):
        about = f"rule of {nodes} nodes, {count} moves:"
        yield check(about, chain_of_64(count), header(1, 2), 0)
        yield watchdog(about, chain_of_64(count), 786)
    for lent in (32768, 128), (32767, 128), (32768, 127), (32769, 129), (0, 0):
        about = f"workspaces of {lent[0]} and {lent[1]}:"
        yield check(about, R, R, 1, 72, lent)
        yield watchdog(about, R, 72, lent)


def limits_of_a_builder():
    for n, m in (32, 32), (1024, 1), (25, 41), (1024, 1024):
        yield join(f"join of {n} and {m} states:", header(n, 2, n - 1), header(m, 3, m - 1), 8, 20)
    for count in (3072, 3073):
        yield join(f"join of 1024 + {count} moves:", LOOP, ring(1024, 4, count), 0, 24600)
    sets = ("no event", 0), ("event 3 of 3", 8), ("event 4 of 3", 16), ("event 0", 1), ("event 63 of 3", 1 << 63)
    for about, shared in sets:
        yield join(f"joining set of {about}:", header(1, 2), header(1, 3), shared, 12)
    for least, shared in (1, 2**64 - 2), (0, 2**64 - 1):
        yield join(f"joining set of events {least} to 63 of 63:", header(1, 63), header(1, 0), shared, 12)
    for events in (0, 62, 63):
        yield watchdog(f"watchdog with E = {events}:", header(1, events), 400)
    for room in (30, 29):
        yield join(f"join in {room} bytes:", R, R, 14, room)
    for room in (72, 71):
        yield watchdog(f"watchdog in {room} bytes:", R, room)


def refusals():
    for number, bad in DAMAGED.items():
        about = f"refusal {number} of"
        yield read(f"{about} a table, reader:", bad, 12)
        yield moves_of(f"{about} a table, moves:", bad, 0)
        yield watchdog(f"{about} a table, watchdog:", bad, 80)
        yield check(f"{about} the rule, check:", bad, R, 0)
        yield check(f"{about} the flow, check:", R, bad, 1)
        yield join(f"{about} the first, join:", bad, R, 0, 20)
        yield join(f"{about} the second, join:", R, bad, 0, 20)
    yield read("offset 268:", changed(R, (9, 1)), 9)
    yield read("last header number 256:", changed(R, (11, 1)), 9)
    for count in (2, 4):
        yield read(f"3 moves and {count} counted:", changed(R, (6, count)), 9)
    yield read("29 bytes:", R[:29], 9)
    for mode in (2, 256, 65535):
        yield check(f"mode {mode}:", R, R, mode)
    yield from both("E 3 and 4:", R, header(1, 4))
    yield from both("E 4 and 3:", header(1, 4), R)


def orders_of_tables():
    yield read("1 and 2:", changed(R, OUTSIDE)[:11], 9)
    yield read("2 and 3:", changed(R, OUTSIDE, MISFRAMED), 9)
    yield read("3 and 4:", changed(R, MISFRAMED, ASTRAY), 9)
    yield read("4 and 5:", changed(R, ASTRAY, MISNAMED), 9)
    yield read("5 late and 6 early:", changed(R, MISNAMED, DISORDERED), 9)
    yield read("6 and 7:", changed(R, DISORDERED, (20, 0), (22, 1)), 9)


def orders_of_calls():
    bare = (0, 0)
    short, silent, many = bytes(11), DAMAGED[7], chain_of_64(65)
    yield check("8 and the rule's 1:", short, R, 2)
    yield check("the rule's 7 and the flow's 1:", silent, short, 0)
    yield check("the flow's 7 and 9:", header(65, 2), silent, 0, 0, bare)
    yield check("9 and 10:", header(65, 2), R, 0, 0, bare)
    yield check("10 and 11:", header(65, 2), header(1, 2), 0, 0, bare)
    yield check("11 and 12:", many, header(1024, 2), 1, 0, bare)
    yield check("12 and 13:", many, header(1024, 2), 1, 0)
    yield check("13 and 14:", ring(17, 1, 16), ring(1024, 1, 1024), 0, 0)
    yield join("the first's 7 and the second's 1:", silent, short, 1, 0)
    yield join("the second's 7 and 15:", R, silent, 1, 0)
    yield join("15 and 16:", DOG_12, header(1024, 3), 1, 0)
    yield join("16 and 17:", DOG_12, header(1024, 3), 0, 0)
    yield join("17 and 18:", LOOP, ring(1024, 4, 4096), 0, 0)
    yield watchdog("the rule's 4 and 10:", header(65, 63, 65), 0, bare)
    yield watchdog("10 and 19:", header(65, 63), 0, bare)
    yield watchdog("19 and 11:", header(64, 63), 0, bare)
    yield watchdog("11 and 12:", many, 0, bare)
    yield watchdog("12 and 18:", many, 0)


def there_and_back():
    tables = {"R": R, "STOP": STOP, "DIV": DIV, "the rule of case 7": RULE_7}
    tables |= {f"the flow of case {n}": CHECKS[n][1] for n in (2, 3, 7, 9)}
    tables |= {"the join of case 10": JOIN_10, "the table of case 11": LOOP, "the watchdog of case 12": DOG_12}
    for name, data in tables.items():
        answer, numbers = rhythmoxa.read(data, [JUNK_16] * 40)
        first = told_read(answer, numbers)
        built, buffer = rhythmoxa.write(*answer[1:4], numbers[: 3 * answer[4]], junk(80))
        assert buffer[: built[1]] == data
        yield f"{name} there and back:{first};{told_built(built, buffer)}; the same up to {len(data)};{first}"


def reasonable_errors():
    hesitates = table([(0, 0, 2), (0, 1, 1), (1, 3, 1), (2, 0, 3), (3, 2, 4)])
    twice = table([(0, 1, 1), (1, 1, 2)])
    always = table([(0, 1, 0)])
    parts_ways = table([(0, 1, 1), (0, 1, 2), (1, 3, 3), (2, 2, 4)])
    yield from both("silent moves before a fault:", R, hesitates)
    yield from both("one flow state beside three nodes:", twice, always)
    yield from both("two flow states after one trace:", twice, parts_ways)


def watched(about, rule, flow, flow_first=False):
    """The joined table against a rule that does all but the watchdog's last event, and the check itself."""
    dog = rhythmoxa.watchdog(rule, *FIT, bytes(200))
    dog = dog[1][: dog[0][1]]
    answer, joined = rhythmoxa.join(*((flow, dog) if flow_first else (dog, flow)), 14, bytes(1200))
    all_but_4 = table([(0, event, 0) for event in (1, 2, 3)], events=4)
    occurs = rhythmoxa.check(all_but_4, joined[: answer[1]], 0, *FIT, junk(40))
    faulty = rhythmoxa.check(rule, flow, 0, *FIT, junk(40))
    assert (occurs[0][0] == "trace-fault") == (faulty[0][0] == "trace-fault")
    return f"{about}: {told_line(0, *occurs)}; short form {told_line(0, *faulty)}; they agree"


def together_and_apart():
    yield watched("watchdog of R and R", R, R)
    yield watched("watchdog of R and the flow of case 3", R, FLOW_3)
    yield watched("watchdog of R and DIV", R, DIV)
    yield watched("watchdog of R and the flow of case 2", R, FLOW_2)
    yield watched("the flow of case 2 and watchdog of R", R, FLOW_2, flow_first=True)
    yield watched("watchdog of R and the flow of case 9", R, FLOW_9)
    yield watched("watchdog of case 7's rule and flow", RULE_7, FLOW_7)
    yield watched("watchdog of case 7's rule and the flow of case 9", RULE_7, FLOW_9)
    yield watched("watchdog of DIV and STOP", DIV, STOP)
    yield watched("the flow of case 9 and watchdog of STOP", STOP, FLOW_9, flow_first=True)
    for case in (8, 3):
        answers = [rhythmoxa.join(part, R, 2, bytes(600)) for part in CHECKS[case]]
        rules, flows = (joined[: answer[1]] for answer, joined in answers)
        yield from both(f"case {case}, each joined with R on 1:", rules, flows)


def lines_of_the_report():
    case_3 = told_line(1, ("refusal-fault", 1, 0), bytes([1]))
    assert len(case_3) == 35
    yield f"line of 36 bytes in 36: wrote 36: {case_3}; kept from 36"
    yield "line of 36 bytes in 35: short; kept from 0"
    yield "line of a trace of 1 in a buffer of 0: short; kept from 0"
    offers = told_line(1, ("refusal-fault", 2, 1 << 1 | 1 << 5 | 1 << 63), bytes([63, 10]))
    yield f"line of events 1, 5 and 63 offered after 63 10: wrote {len(offers) + 1}: {offers}; kept from {len(offers) + 1}"


SECTIONS = [
    marked,
    limits_of_a_table,
    limits_of_a_check,
    limits_of_a_builder,
    refusals,
    orders_of_tables,
    orders_of_calls,
    there_and_back,
    reasonable_errors,
    together_and_apart,
    lines_of_the_report,
]

if __name__ == "__main__":
    for section in SECTIONS:
        for line in section():
            print(line)
