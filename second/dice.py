"""Numbers drawn from a seed. Python's own generator may change with its version; these stay the same."""

WORD = (1 << 64) - 1


class Dice:
    """The sequence known as SplitMix64."""

    def __init__(self, seed):
        self.state = seed & WORD

    def word(self):
        self.state = (self.state + 0x9E3779B97F4A7C15) & WORD
        mixed = self.state
        mixed = ((mixed ^ (mixed >> 30)) * 0xBF58476D1CE4E5B9) & WORD
        mixed = ((mixed ^ (mixed >> 27)) * 0x94D049BB133111EB) & WORD
        return mixed ^ (mixed >> 31)

    def below(self, limit):
        return self.word() % limit

    def between(self, low, high):
        """From low to high, both included."""
        return low + self.below(high - low + 1)

    def chance(self, hundredths):
        return self.below(100) < hundredths

    def pick(self, options):
        return options[self.below(len(options))]

    def weighted(self, options):
        """One of the options, each given as (option, weight)."""
        left = self.below(sum(weight for _, weight in options))
        for option, weight in options:
            left -= weight
            if left < 0:
                return option
        raise AssertionError("weights add up to more than is drawn")

    def junk(self, length):
        """Bytes that a buffer may hold before a call."""
        return bytes(self.below(256) for _ in range(length))
