"""Numbers and octets that look random and are the same in every run: Python promises that `random()` stays as it is."""

import random


class Chance:
    """One stream of them: what is drawn depends on what was drawn from it before."""

    def __init__(self, seed=1):
        self.source = random.Random(seed)

    def below(self, n):
        """A number below n."""
        return int(self.source.random() * n)

    def one_of(self, things):
        """One of some things."""
        return things[self.below(len(things))]

    def octets(self, count, among=range(256)):
        """So many octets, each one of some."""
        return bytes(self.one_of(among) for _ in range(count))
