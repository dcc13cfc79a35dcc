"""Logs that calls of `append` make on an empty buffer, refused calls among them, and what must be read of one that has
lost octets at its front. That is said of the records as they were taken, not by reading the rest."""

from chance import Chance
from finder import Refused
from frames import written as frame
from links import message
from log import KINDS, MOST, START, Record, append, listed, size

# Octets of the buffer behind the log, so that its part is not the whole of what is read in.
BEHIND = 8

# Frames under both rules, and a message: payloads that are valid, or in which frames are found, and one that is not.
GOOD = frame("g", 0, 16, 5), frame("g", 5, 130, 5, b"\x01\x04"), message(0x0A, b"\x01\x20"), frame("h", 0, 16, 5)

# Seconds: the lowest, the highest, one whose octets differ, and some whose octets look like a trailer.
SECONDS = 0, 1, 0x01020304, 0xFFFFFFFF, 0x00010001, 0x0B000101

# One log in so many has records of the longest sizes. Their cuts are many.
LONG = 1000


class Call:
    """A call of `append`: what it is given, and what it answers."""

    def __init__(self, kind, time, payload):
        self.kind, self.time, self.payload = kind, time, payload
        self.answer = None

    def is_taken(self):
        """Whether it answered a used count."""
        return not isinstance(self.answer, Refused)


class Log:
    """A buffer, the calls made on it, and the records that they took, oldest first."""

    def __init__(self, seed, number):
        chance = Chance(f"{seed} {number}")
        self.calls = list(calls(chance, number % LONG == 0))
        needed = sum(size(len(call.payload), call.time) for call in self.calls)
        # One buffer in four is too small for all of them.
        self.room = needed + BEHIND - (chance.below(needed + 1) if chance.below(4) == 0 else 0)
        self.before = chance.octets(self.room)
        self.buffer, self.used, self.records = bytearray(self.before), 0, []
        for call in self.calls:
            call.answer = append(self.buffer, self.used, call.kind, call.time, call.payload)
            if call.is_taken():
                self.records.append(Record(call.kind, call.time, self.used, call.payload))
                self.used = call.answer
        self.lines = [listed(record.kind, record.time, record.octets) for record in self.records]

    def first_whole(self, lost):
        """The number of the oldest record that is still whole, and where it starts, or the log ends, in the rest."""
        borders = [record.start for record in self.records] + [self.used]
        oldest = next(number for number, border in enumerate(borders) if border >= lost)
        return oldest, borders[oldest] - lost

    def answers(self, lost):
        """What is answered, back from the end: the whole records, newest first, with less before them; then whether a
        record is torn, and how much of it is left."""
        oldest, left = self.first_whole(lost)
        whole = [record._replace(start=record.start - lost) for record in self.records[oldest:]]
        return whole[::-1] + [START if left == 0 else Refused(41 if left <= 2 else 44)]

    def text(self, lost):
        """What is printed of the rest."""
        oldest, _ = self.first_whole(lost)
        last = self.answers(lost)[-1]
        return self.lines[oldest:][::-1] + ["end" if last == START else f"stopped {last.question}"]

    def place(self, lost):
        """Where the cut falls: the record's sort and part, or between records."""
        oldest, left = self.first_whole(lost)
        if left == 0:
            return "all are lost" if lost == self.used else "none is lost" if lost == 0 else "between two records"
        torn = self.records[oldest - 1]
        sort = "no time" if torn.time is None else "a time"
        if left < 3:
            return f"{left} left, {sort}"
        if left == 3:
            return f"a trailer left, {sort}"
        return f"in {'the time' if torn.time is not None and left < 7 else 'a payload'}, {sort}"


# Every place that a cut can fall in.
PARTS = "in a payload", "a trailer left", "2 left", "1 left"
PLACES = ["none is lost", "between two records", "all are lost", "in the time, a time"]
PLACES += [f"{part}, {sort}" for part in PARTS for sort in ("no time", "a time")]


def calls(chance, long):
    """Some calls; of a kind that there isn't, or with too many octets or none, one in eight."""
    for _ in range(1 + chance.below(2 if long else 6)):
        kind, time = chance.one_of(KINDS), None if chance.below(2) else second(chance)
        payload = chance.octets(MOST - chance.below(3)) if long else some_payload(chance)
        if chance.below(8) == 0:
            refused = [(0, payload), (4, payload), (0x0B, payload), (kind, b""), (kind, bytes(MOST + 1))]
            kind, payload = chance.one_of(refused)
        yield Call(kind, time, payload)


def second(chance):
    """A second: one at a border, or any."""
    return chance.one_of(SECONDS) if chance.below(2) else chance.below(1 << 32)


def some_payload(chance):
    """Some octets: any, such as trailers have, or good ones."""
    some = chance.below(4)
    if some == 0:
        return chance.one_of(GOOD)
    return chance.octets(1 + chance.below(12), (0, 1, 2, 3, 0x0B, 0x0C, 0x0D) if some == 1 else range(256))
