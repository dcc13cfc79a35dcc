"""The log, and what `buslog` prints of one, as document 01 tells them, with document 02's times."""

from collections import namedtuple

from finder import Refused, reports
from frames import errors
from links import ethernet_errors, ip_errors

KINDS = BUS, IP, ETHERNET = 1, 2, 3

# What the octet of a kind says, the kind and how many octets its time has; and which octet says that.
SAID = {0x01: (BUS, 0), 0x02: (IP, 0), 0x03: (ETHERNET, 0), 0x0B: (BUS, 4), 0x0C: (IP, 4), 0x0D: (ETHERNET, 4)}
SAYING = {said: octet for octet, said in SAID.items()}

# Octets of a trailer; most octets of a record, and of a log that is listed.
TRAILER = 3
MOST = 1514
MOST_IN_ALL = 65_536

# A record that is read, and the answer where none is left. A time is a second or, where there is none, None.
Record = namedtuple("Record", "kind time start octets")
START = "S"


def time_octets(time):
    """The octets of a time: those of the second, high octet first. 0 is a second."""
    return b"" if time is None else time.to_bytes(4, "big")


def record(kind, octets, time=None):
    """A record: its octets and its time, then kind and length, high octet first. The length counts the octets alone."""
    second = time_octets(time)
    return octets + second + bytes([SAYING[kind, len(second)]]) + len(octets).to_bytes(2, "big")


def written(records):
    """A log of some records, oldest first."""
    return b"".join(record(*one) for one in records)


def size(length, time):
    """How many octets a log needs for a record."""
    return length + len(time_octets(time)) + TRAILER


def no_record(kind, length):
    """The question that refuses a kind or a length, if one does."""
    if kind not in KINDS:
        return Refused(42)
    return None if 1 <= length <= MOST else Refused(43)


def not_appended(room, used, kind, time, length):
    """The question that refuses a record of so many octets behind the used ones of a buffer, if one does."""
    if used > room:
        return Refused(47)
    return no_record(kind, length) or (Refused(46) if used + size(length, time) > room else None)


def append(buffer, used, kind, time, octets):
    """Puts a record behind the used octets of a buffer: the new used count, or the question that refuses."""
    refused = not_appended(len(buffer), used, kind, time, len(octets))
    if refused:
        return refused
    end = used + size(len(octets), time)
    buffer[used:end] = record(kind, octets, time)
    return end


def read(log, end):
    """The record that ends there, "start reached", or the question that refuses."""
    if end > len(log):
        return Refused(47)
    if end == 0:
        return START
    if end < TRAILER:
        return Refused(41)
    trailer = end - TRAILER
    kind, time_count = SAID.get(log[trailer], (None, 0))
    length = int.from_bytes(log[trailer + 1 : end], "big")
    behind = trailer - time_count
    refused = no_record(kind, length) or (Refused(44) if length > behind else None)
    time = int.from_bytes(log[behind:trailer], "big") if time_count else None
    return refused or Record(kind, time, behind - length, log[behind - length : behind])


def read_back(log, end):
    """The answers back from an end, until one is no record."""
    answers = [read(log, end)]
    while isinstance(answers[-1], Record):
        answers.append(read(log, answers[-1].start))
    return answers


def listed(kind, time, octets):
    """A record's line: V says whether the kind's own validator is content, F how many frames a whole reading finds."""
    found = {BUS: lambda: errors("g", octets), IP: lambda: ip_errors(octets), ETHERNET: lambda: ethernet_errors(octets)}
    frames = len(reports("g", octets)) if kind == BUS else 0
    second = "-" if time is None else time
    return f"record {kind} {len(octets)} {int(not any(found[kind]()))} {frames} {second}"


def lines(log):
    """What `buslog` prints."""
    if len(log) > MOST_IN_ALL:
        return ["long"]
    *records, last = read_back(log, len(log))
    end = "end" if last == START else f"stopped {last.question}"
    return [listed(kind, time, octets) for kind, time, _, octets in records] + [end]


# Document 01's example, with document 02's line.
EXAMPLE = bytes.fromhex("55ff00100500008c010008")
assert lines(EXAMPLE) == ["record 1 8 1 1 -", "end"]
