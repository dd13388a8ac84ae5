"""The text protocol of calls and answers: README.md says what each line means."""

import rhythmoxa

NOTHING = "-"  # a field of no bytes or no numbers
SAME = "same"  # a buffer that holds what it held before the call


def line(verb, *fields):
    """A call line from its fields in order."""
    return " ".join([verb, *map(str, fields)])


def bytes_field(data):
    return data.hex() or NOTHING


def numbers_field(numbers):
    return "".join(f"{number:04x}" for number in numbers) or NOTHING


def bytes_of(field):
    return b"" if field == NOTHING else bytes.fromhex(field)


def numbers_of(field):
    return [] if field == NOTHING else [int(field[at : at + 4], 16) for at in range(0, len(field), 4)]


def after(before, buffer, to_field):
    return SAME if buffer == before else to_field(buffer)


def words(answer, *rest):
    return " ".join(map(str, [*answer, *rest]))


# After check and watchdog both workspaces are zero, whatever they held: the junk that a call names is of no account.
ZERO = ("zero", "zero")


def answer_read(table, numbers):
    before = numbers_of(numbers)
    answer, later = rhythmoxa.read(bytes_of(table), before)
    return words(answer, after(before, later, numbers_field))


def answer_write(states, events, start, numbers, result):
    before = bytes_of(result)
    answer, later = rhythmoxa.write(int(states), int(events), int(start), numbers_of(numbers), before)
    return words(answer, after(before, later, bytes_field))


def answer_moves(table, state):
    return words(("part", bytes_field(rhythmoxa.moves_of(bytes_of(table), int(state)))))


def answer_check(rule, flow, mode, length16, length64, _junk, trace):
    before = bytes_of(trace)
    answer, later = rhythmoxa.check(
        bytes_of(rule), bytes_of(flow), int(mode), int(length16), int(length64), before
    )
    return words(answer, *ZERO, after(before, later, bytes_field))


def answer_short(rule, flow, length16, length64, _junk, trace):
    before = bytes_of(trace)
    answer, later = rhythmoxa.check_short(bytes_of(rule), bytes_of(flow), int(length16), int(length64), before)
    return words(answer, *ZERO, after(before, later, bytes_field))


def answer_join(first, second, shared, result):
    before = bytes_of(result)
    answer, later = rhythmoxa.join(bytes_of(first), bytes_of(second), int(shared), before)
    return words(answer, after(before, later, bytes_field))


def answer_dog(rule, length16, length64, _junk, result):
    before = bytes_of(result)
    answer, later = rhythmoxa.watchdog(bytes_of(rule), int(length16), int(length64), before)
    return words(answer, *ZERO, after(before, later, bytes_field))


ANSWERS = {
    "read": answer_read,
    "write": answer_write,
    "moves": answer_moves,
    "check": answer_check,
    "short": answer_short,
    "join": answer_join,
    "dog": answer_dog,
}


def answer(line):
    """The answer line to a call line, both without their line feed."""
    verb, *fields = line.split(" ")
    return ANSWERS[verb](*fields)
