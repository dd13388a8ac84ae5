"""Calls from a seed: python3 generate.py SEED COUNT [LARGE].

Prints COUNT small calls and, if LARGE is 1, the large ones after them (README.md has the protocol). The first calls
are always the same: document 01's trial cases, the stored calls, every refusal alone and every two at once. The rest
is drawn; the same seed gives the same calls on every machine.
"""

import sys

from dice import Dice
from large import large_calls
from refusals import refusal_calls
from small import small_call
from stored import stored_calls
from trial import trial_calls

LONGEST_SMALL = 4096  # characters in a line, line feed included
LONGEST = 100000  # the same for a large call


def drawn(dice):
    """A small call that keeps the bound on its line."""
    call = small_call(dice)
    while len(call) >= LONGEST_SMALL:
        call = small_call(dice)
    return call


def calls_from(seed, count, with_large):
    dice = Dice(seed)
    fixed = trial_calls() + stored_calls() + [call for call, _ in refusal_calls()]
    yield from fixed[:count]
    for _ in range(count - len(fixed)):
        yield drawn(dice)
    if with_large:
        yield from large_calls(dice)


def main(seed, count, with_large="0"):
    for call in calls_from(int(seed), int(count), with_large == "1"):
        sys.stdout.write(call + "\n")


if __name__ == "__main__":
    if not 3 <= len(sys.argv) <= 4:
        sys.exit(__doc__)
    main(*sys.argv[1:])
