"""The calls that the gate's program `replay_log` makes on one buffer, and what they answer. A call and its answer are a
line each:

    A UUUUUUUU KK TIME LLLL OO   appends behind so many used octets a record of that kind: LLLL octets, counting up from
                                 OO. TIME is T and its second, eight digits, or -
    U NNNN                         the new used count, or REFUSAL
    R EEEEEEEE                   reads the record that ends there, and its octets
    R KK TIME SSSS LLLL OCTETS     its kind, its second or -, its start, length and octets, or LAST
    C EEEEEEEE                   counts the records back from there
    C NNNN LAST                    their count, and the answer behind them
    B                            shows the buffer
    OCTETS

    LAST      S, "start reached", or REFUSAL
    REFUSAL   E NN, the first question that fails

In a call nothing stands between the words. Numbers are hexadecimal. The buffer has 4096 octets, which are A5 at first.
"""

from collections import Counter
from itertools import cycle

from finder import Refused
from log import BUS, ETHERNET, IP, KINDS, MOST, START, TRAILER, Record, append, not_appended, read, read_back, size

SIZE = 4096

# Used counts and ends beyond the buffer.
BEYOND = (SIZE + 1, SIZE + 2, 0x10000, 0x80000000, 0xFFFFFFFF)

# Seconds: the lowest, the highest, and one whose octets differ.
SECONDS = (0, 1, 0x01020304, 0xFFFFFFFF)

# The octets of kinds with a time, which are no kinds, and those beside them.
TIMED = range(0x0A, 0x0F)


class Calls:
    """The buffer, and the calls made on it, each with its answer."""

    def __init__(self):
        self.buffer = bytearray(b"\xa5" * SIZE)
        self.made = []

    def append(self, used, kind, length, first=0, time=None):
        """Appends, and gives the used count behind it."""
        answer = append(self.buffer, used, kind, time, bytes((first + i) % 256 for i in range(length)))
        refused = isinstance(answer, Refused)
        text = str(answer) if refused else f"U {answer:04x}"
        second = "-" if time is None else f"T{time:08x}"
        self.made.append((f"A{used:08x}{kind:02x}{second}{length:04x}{first:02x}", text))
        return used if refused else answer

    def read(self, end):
        """Reads the record that ends there."""
        answer = read(self.buffer, end)
        if isinstance(answer, Record):
            kind, time, start, octets = answer
            second = "-" if time is None else f"{time:08x}"
            answer = f"R {kind:02x} {second} {start:04x} {len(octets):04x} {octets.hex()}"
        self.made.append((f"R{end:08x}", str(answer)))

    def count(self, end):
        """Counts the records back from there."""
        *records, last = read_back(self.buffer, end)
        self.made.append((f"C{end:08x}", f"C {len(records):04x} {last}"))

    def read_and_count(self, end):
        """Both from one end."""
        self.read(end)
        self.count(end)

    def look(self, ends):
        """Reads and counts from these ends and beside them, the first six, the last and beyond; shows the buffer."""
        beside = {end + step for end in ends for step in (-1, 0, 1)}
        every = sorted(beside.union(range(6), (SIZE - 1, SIZE), BEYOND))
        for end in every:
            self.read(end)
        for end in every:
            self.count(end)
        self.made.append(("B", self.buffer.hex()))


def refusals(calls):
    """Every question of appending, alone and before others, with a time and without one: nothing is written."""
    times = cycle((None, 0, None, 0xFFFFFFFF))
    for used in (0, SIZE - 3, SIZE - 1, SIZE, *BEYOND):
        for kind in (0, *KINDS, 4, 255):
            for length, time in zip((0, 1, MOST, MOST + 1, MOST + 6), times):
                if not_appended(SIZE, used, kind, time, length):
                    calls.append(used, kind, length, time=time)
    for kind in TIMED:
        for used, length in ((0, 1), (0, 0), (0, MOST + 1), (SIZE, 1), (SIZE + 1, 1)):
            calls.append(used, kind, length, time=next(times))
    for time in (None, 0x01020304):
        for kind in KINDS:
            for length in (1, 2, 255, 256, MOST):
                calls.append(SIZE - size(length, time) + 1, kind, length, time=time)
    calls.look([])


def sizes(calls, times):
    """The smallest record, two of the longest, and one that just fills the buffer; then records over older ones. They
    have these times in turn."""
    times = cycle(times)
    ends = [calls.append(0, BUS, 1, 0x55, next(times))]
    ends.append(calls.append(ends[-1], IP, MOST, 0x81, next(times)))
    ends.append(calls.append(ends[-1], ETHERNET, MOST, 0xFF, next(times)))
    time = next(times)
    fitting = SIZE - ends[-1] - size(0, time)
    calls.append(ends[-1], BUS, fitting + 1, time=time)
    ends.append(calls.append(ends[-1], BUS, fitting, time=time))
    calls.append(ends[-1], BUS, 1, time=time)
    calls.look(ends)
    for used, kind, length in ((ends[0], ETHERNET, 200), (ends[0], BUS, 2), (0, IP, 1), (1000, IP, 300), (3, BUS, 4)):
        ends.append(calls.append(used, kind, length, 0x20, next(times)))
    calls.look(ends[:1] + ends[4:])


def last_places(calls):
    """Records that end with the buffer, and one octet behind that."""
    plain = (BUS, MOST, None), (IP, 256, None), (ETHERNET, 1, None)
    for kind, length, time in (*plain, (IP, MOST, 0xFFFFFFFF), (BUS, 1, 0)):
        used = SIZE - size(length, time)
        calls.append(used, kind, length, 0xC0, time)
        calls.append(used + 1, kind, length, time=time)
        calls.look([used])


def borders(calls):
    """An end where a trailer's length and the octet behind it look like a trailer: lengths 0 and 1, 1514 and 1515, a
    record from the buffer's start, and one octet too few for it."""
    ends = [(0, 256, 0), (0, 256, 1), (2000, 261, 0xEA), (2000, 261, 0xEB), (0, 261, 0xEB), (0, 257, 2), (0, 257, 3)]
    for used, length, first in ends:
        end = calls.append(used, ETHERNET, length, 0x40)
        calls.append(end, IP, 1, first)
        calls.read_and_count(end + 1)
    calls.look([])


def timed_borders(calls):
    """The same borders with a time: the last octet of a record's length is written over. Then octets of kinds with a
    time, and those beside them, where a record's last octet, its kind and half of its length look like a trailer."""
    ends = [(0, 1, 0), (0, 1, 1), (2000, 1290, 0xEA), (2000, 1290, 0xEB), (0, 300, 0x2C), (0, 300, 0x2D)]
    for used, length, last in ends:
        end = calls.append(used, ETHERNET, length, 0x40, 0x01020304)
        calls.append(end - 1, IP, 1, last)
        calls.read_and_count(end)
    for octet in TIMED:
        calls.append(2000, BUS, 5, octet - 4)
        calls.read_and_count(2007)


def any_time(chance):
    """A second or, as often, no time."""
    return chance.one_of([None, chance.below(1 << 32)])


def random_log(calls, chance, longest, last):
    """Random records and refused ones from the start until the buffer is full, which are read back; then some over
    older ones. The record that fills the buffer has the time `last`."""
    used, ends = 0, []
    while SIZE - used > longest + 14:
        kind, length, first = chance.below(5), chance.below(longest + 1), chance.below(256)
        behind = calls.append(used, kind, length, first, any_time(chance))
        if behind > used:
            ends.append(behind)
        used = behind
    fitting = SIZE - used - size(0, last)
    calls.append(used, BUS, fitting + 1, time=last)
    ends.append(calls.append(used, BUS, fitting, 0x90, last))
    calls.look(ends)
    *records, answer = read_back(calls.buffer, SIZE)
    assert answer == START and len(records) == len(ends)
    for end in ends[1::4]:
        kind, length, first = 1 + chance.below(3), 1 + chance.below(longest), chance.below(256)
        ends.append(calls.append(end, kind, length, first, any_time(chance)))
    calls.look(ends[-8:])


def made(chance):
    """All calls and their answers, in order."""
    calls = Calls()
    refusals(calls)
    for times in ([None], SECONDS):
        sizes(calls, times)
    last_places(calls)
    borders(calls)
    timed_borders(calls)
    for longest, last in ((140, None), (700, 0xFFFFFFFF)):
        random_log(calls, chance, longest, last)
    return calls.made


def table(made):
    """How many calls of each kind have each answer."""
    rows = found, timed, start = "a used count, or a record", "of these, with a time", "start reached"
    names = {"U": found, "R": found, "S": start}
    counts = Counter()
    for call, answer in made:
        if call[0] != "B":
            last = answer.split(" ", 2)[2] if call[0] == "C" else answer
            counts[names.get(last[0]) or str(int(last[2:], 16)), call[0]] += 1
            counts[timed, call[0]] += last[0] == "U" and "T" in call or last[0] == "R" and last.split()[2] != "-"
    yield "| answer | `append` | `read_record` and `record_payload` | `count_records`: after the records |"
    yield "|---|---|---|---|"
    for name in [*rows, *sorted({name for name, _ in counts} - set(rows))]:
        yield f"| {name} | " + " | ".join(str(counts[name, kind] or "") for kind in "ARC") + " |"
