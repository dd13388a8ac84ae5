"""Tables that may be wrong: a good table's numbers, and the damages that make refusals 1 to 7 apply."""

import struct
from bisect import insort

import rhythmoxa


class Draft:
    """A table's numbers, free to be wrong. The moves are put in order once; damages may disorder them later."""

    def __init__(self, states, events, start, moves):
        self.states = states
        self.events = events
        self.start = start
        self.moves = sorted(set(moves))
        self.count_error = 0  # added to the count of moves in the header
        self.offset = rhythmoxa.HEADER
        self.last = 0
        self.extra = b""  # after the last move
        self.length = None  # where the bytes are cut off, if they are
        self.flip = (0, 0)  # a place, counted round where moves are taken out later, and which bits of its byte are turned

    def copy(self):
        twin = Draft(self.states, self.events, self.start, [])
        twin.__dict__.update(self.__dict__, moves=list(self.moves))
        return twin

    def table(self):
        return rhythmoxa.Table(self.states, self.events, self.start, list(self.moves))

    def numbers(self):
        """The moves as the writer takes them."""
        return [number for move in self.moves for number in move]

    def data(self):
        count = len(self.moves) + self.count_error
        header = [self.states, self.events, self.start, count, self.offset, self.last]
        fields = [number & 0xFFFF for number in header + self.numbers()]
        data = bytearray(struct.pack(f"<{len(fields)}H", *fields))
        place, bits = self.flip
        data[place % len(data)] ^= bits
        return (bytes(data) + self.extra)[: self.length]


def cut_header(draft, dice):
    draft.length = dice.below(rhythmoxa.HEADER)


def pass_limits(draft, dice):
    """Also numbers whose low byte alone would pass."""
    which = dice.below(3)
    if which == 0:
        draft.states = dice.pick([0, 1025, 1280, 2048, 65535])
    elif which == 1:
        draft.events = dice.pick([64, 65, 256, 259, 65535])
    else:
        draft.count_error = dice.pick([4097, 8192, 65535]) - len(draft.moves)


def misframe(draft, dice):
    which = dice.below(5)
    if which == 0:
        draft.offset = dice.pick([0, 10, 11, 13, 18, 12 + 256, 12 * 256, 65535])
    elif which == 1:
        draft.last = dice.pick([1, 255, 256, 65535])
    elif which == 2:
        draft.extra = dice.junk(dice.between(1, 7))
    elif which == 3:
        draft.count_error = dice.pick([-1, 1, 256])
    else:
        draft.extra = dice.junk(6)
        draft.length = len(draft.data()) - dice.between(1, 5)


def misplace_start(draft, dice):
    draft.start = draft.states + dice.pick([0, 0, 1, 2, 255, 256, 60000])


def name_unknown(draft, dice):
    """A move that names a state or an event that is not there, in its place or anywhere."""
    state = dice.below(max(draft.states, 1))
    event = dice.below(draft.events + 1)
    wrong_state = draft.states + dice.pick([0, 0, 1, 256, 60000])
    wrong_event = draft.events + dice.pick([1, 1, 2, 256, 60000])
    move = dice.pick([(wrong_state, event, state), (state, event, wrong_state), (state, wrong_event, state)])
    if dice.chance(70):
        insort(draft.moves, move)
    else:
        draft.moves.insert(dice.below(len(draft.moves) + 1), move)


def disorder(draft, dice):
    moves = draft.moves
    if not moves:
        moves.append((0, min(draft.events, 1), 0))
    if len(moves) == 1 or dice.chance(40):
        at = dice.below(len(moves))
        moves.insert(at, moves[at])
    else:
        at = dice.below(len(moves) - 1)
        moves[at], moves[at + 1] = moves[at + 1], moves[at]


def loop_silently(draft, dice):
    state = dice.below(max(draft.states, 1))
    insort(draft.moves, (state, 0, state))


DAMAGES = {
    1: cut_header,
    2: pass_limits,
    3: misframe,
    4: misplace_start,
    5: name_unknown,
    6: disorder,
    7: loop_silently,
}


def damage(draft, dice, count):
    """Makes so many different ones of refusals 1 to 7 apply; some hide others. Or turns one bit anywhere."""
    if dice.chance(15):
        draft.flip = (dice.below(rhythmoxa.HEADER + rhythmoxa.MOVE * len(draft.moves)), 1 << dice.below(8))
        return
    left = sorted(DAMAGES)
    for _ in range(count):
        number = dice.pick(left)
        left.remove(number)
        DAMAGES[number](draft, dice)
