"""What runs are made of: frames, sparks, and damage that holds a false frame."""

from checks import data_check
from frames import HEAD, headed, length_of, octet_count, written


class Parts:
    """Parts under a rule, drawn by chance."""

    def __init__(self, rule, chance):
        self.rule, self.chance = rule, chance
        self.below, self.one_of, self.octets = chance.below, chance.one_of, chance.octets

    def address(self):
        """A station, as destination and as source."""
        return self.below(255)

    def addressed(self):
        """A type, a destination and a source."""
        return self.below(8), self.address(), self.address()

    def data(self):
        """None, a few octets, or many that repeat."""
        size = self.one_of([0, 1 + self.below(24), 100 + self.below(402)])
        return (self.octets(1 + self.below(8)) * size)[:size] if size > 24 else self.octets(size)

    def once(self, what):
        """Whether the frame written from it has 55 FF at its head alone."""
        return written(self.rule, *what).rfind(HEAD) == 0

    def sent_once(self):
        """What a frame with 55 FF at its head alone is written from: type, destination, source, data."""
        while True:
            what = self.below(8), self.one_of([255, self.address()]), self.address(), self.data()
            if self.once(what):
                return what

    def small_frame(self):
        """A frame of at most six data octets."""
        return written(self.rule, *self.addressed(), self.octets(self.below(7)))

    def frame_ending(self, right):
        """A frame of a few data octets, the last one 55, that ends right."""
        while True:
            frame = written(self.rule, 5, 16, 5, self.octets(1 + self.below(5)) + b"\x55")
            if right(frame):
                return frame

    def with_changes(self, run):
        """The octets with one to three changes: an octet changed, left out or put in."""
        for _ in range(1 + self.below(3)):
            place = self.below(len(run))
            more = self.one_of([self.octets(1), b"", self.octets(1) + run[place : place + 1]])
            run = run[:place] + more + run[place + 1 :]
        return run

    def spark(self):
        """Octets as a spark leaves them: noise, parts of heads, broken headers, cut and changed frames."""
        frame = self.small_frame()
        return self.one_of(
            [
                self.octets(self.below(13)),
                self.octets(self.below(9), [0x55, 0xFF]),
                HEAD + self.octets(6, [0x00, 0x01, 0x05, 0x55, 0xFF]),
                headed(self.rule, *self.addressed(), self.below(502)),
                frame[: self.below(len(frame))],
                self.with_changes(frame),
            ]
        )

    def sparks(self, count):
        """So many sparks one behind another."""
        return b"".join(self.spark() for _ in range(count))

    def sparks_and_frames(self, count):
        """So many sparks, each with a frame behind it."""
        return b"".join(self.spark() + self.small_frame() for _ in range(count))

    def false_header(self, length, last):
        """A header of a data length whose check octet is `last`, under a rule that has one."""
        while True:
            header = headed(self.rule, *self.addressed(), length)
            if header[7] == last:
                return header

    def false_front(self):
        """The front of a false frame, for the damage's end: a whole header with some data; or a header whose last
        octets are those of the real head behind it, the low octet of its length and its check, or its check alone."""
        whole = headed(self.rule, *self.addressed(), 20 + self.below(482)) + self.octets(self.below(20))
        ways = [whole, self.false_header(self.one_of([0x0055, 0x0155]), 0xFF)[:6]]
        if self.rule == "g":
            ways.append(self.false_header(20 + self.below(482), 0x55)[:7])
        return self.one_of(ways)

    def closed(self, damage, start, frames):
        """What is sent behind some damage, with the check octets of the false frame that starts at a place of the
        damage put where they belong, if they fall into the data of a frame that keeps 55 FF at its head alone."""
        run = damage + b"".join(written(self.rule, *what) for what in frames)
        end = start + 8 + length_of(run[start:])
        check = data_check(self.rule, run[start + 8 : end])
        at = len(damage)
        for i, (*addressed, body) in enumerate(frames):
            inside = end - (at + 8)
            if 0 <= inside <= len(body) - 2:
                changed = (*addressed, body[:inside] + check + body[inside + 2 :])
                if self.once(changed):
                    return frames[:i] + [changed] + frames[i + 1 :]
            at += octet_count(len(body))
        return frames
