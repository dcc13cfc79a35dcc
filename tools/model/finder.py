"""The finder and the whole reading."""

from collections import namedtuple
from functools import cache

from frames import acceptable, length_of, octet_count


class Report(namedtuple("Report", "place count")):
    """A frame that is found: its place and its octet count. As text it is what stands in a stored answer."""

    @property
    def end(self):
        return self.place + self.count

    def __str__(self):
        return f"F {self.place:04x} {self.count:04x}"


class Refused(namedtuple("Refused", "question")):
    """The first question that fails. As text it is what stands in a stored answer."""

    def __str__(self):
        return f"E {self.question:02x}"


# The answer where no frame is found.
NONE = "N"


def own_octets(run, place):
    """The octets of a frame that starts at a place: as many as its length says, if the run has them."""
    return run[place : place + octet_count(length_of(run[place : place + 8]))]


def find(rule, run, place):
    """The first acceptable frame that starts at a place or later."""
    if len(run) > 65_535:
        return Refused(31)
    if place > len(run):
        return Refused(33)
    for start in range(place, len(run)):
        frame = own_octets(run, start)
        if acceptable(rule, frame):
            return Report(start, len(frame))
    return NONE


@cache
def calls(rule, run, place=0):
    """The answers from a place on, each next call from the last report's end, until one is no report."""
    answers = [find(rule, run, place)]
    while isinstance(answers[-1], Report):
        answers.append(find(rule, run, answers[-1].end))
    return answers


def reports(rule, run):
    """The reports of a whole reading."""
    return calls(rule, run)[:-1]
