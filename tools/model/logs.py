"""The logs that the gate's program lists: their names and octets, in order."""

from dryer import WHO_IS, broadcast
from frames import written as frame
from links import ethernet_frame, message
from log import BUS, ETHERNET, EXAMPLE, IP, MOST, MOST_IN_ALL, TRAILER, record, written

TOKEN = frame("g", 0, 16, 5)
DATA = frame("g", 5, 130, 5, bytes.fromhex("0104027301"))
IP_MESSAGE = message(0x0A, WHO_IS)
ETHERNET_FRAME = broadcast(bytes.fromhex("01201008"))

# Each kind, content and not: another kind's octets, too short, one octet wrong; V and F that differ.
EACH_KIND = [
    (BUS, TOKEN),
    (BUS, DATA),
    (BUS, DATA[:-1]),
    (BUS, TOKEN[:7]),
    (BUS, frame("h", 0, 16, 5)),
    (BUS, frame("g", 128, 16, 5)),
    (BUS, frame("g", 0, 16, 255)),
    (BUS, TOKEN + DATA),
    (BUS, IP_MESSAGE),
    (IP, IP_MESSAGE),
    (IP, IP_MESSAGE[:-1]),
    (IP, message(0x0D, b"")),
    (IP, message(0x0E, b"")),
    (IP, b"\x81"),
    (IP, TOKEN),
    (IP, message(0x0A, bytes(1493))),
    (IP, message(0x0A, bytes(1494))),
    (ETHERNET, ETHERNET_FRAME),
    (ETHERNET, ETHERNET_FRAME[:17]),
    (ETHERNET, ETHERNET_FRAME[:16]),
    (ETHERNET, ETHERNET_FRAME[:13] + b"\xdd" + ETHERNET_FRAME[14:]),
    (ETHERNET, ETHERNET_FRAME[:16] + b"\x02" + ETHERNET_FRAME[17:]),
    (ETHERNET, ethernet_frame(bytes(6), bytes(6), bytes(MOST - 17))),
    (ETHERNET, TOKEN),
]

# Records with a time, among others: each kind, the lowest and the highest second, one whose octets differ, the longest.
TIMED = [
    (BUS, TOKEN, 0),
    (BUS, TOKEN),
    (IP, IP_MESSAGE, 1),
    (ETHERNET, ETHERNET_FRAME),
    (ETHERNET, ETHERNET_FRAME, 0xFFFFFFFF),
    (BUS, DATA[:-1], 0x01020304),
    (IP, IP_MESSAGE),
    (ETHERNET, ethernet_frame(bytes(6), bytes(6), bytes(MOST - 17)), 0xFFFFFFFF),
]

# As long as is listed, and one octet more. Every second record has a time.
FULL = [(BUS, (DATA * 101)[: MOST - 1 - n % 2], n if n % 2 else None) for n in range(43)]
REST = MOST_IN_ALL - len(written(FULL)) - TRAILER
FULL_LOG = record(BUS, (TOKEN * 100)[:REST]) + written(FULL)
assert len(FULL_LOG) == MOST_IN_ALL

# How many octets the program asks for at a time: all that it has room for, a few, one; none, which counts as one.
PIECES = MOST_IN_ALL + 1, 5, 1, 0


def sparks(chance):
    """Frames with sparks between them, before and behind them; a broken header that says many octets; a frame cut."""
    octets = chance.octets
    yield BUS, octets(7) + TOKEN + octets(5) + DATA + octets(9) + TOKEN + octets(3)
    yield BUS, DATA[:8] + TOKEN + DATA
    yield BUS, b"\x55" + DATA + b"\x55\xff" + TOKEN
    yield BUS, (TOKEN + octets(4)) * 100
    yield BUS, TOKEN * 189


def named(dryer, chance):
    """The logs by their names. One is a dryer's."""
    return {
        "example": EXAMPLE,
        "empty": b"",
        "dryer": dryer,
        "kinds": written(EACH_KIND),
        "timed": written(TIMED),
        "sparks": written(sparks(chance)),
        "smallest": written([(BUS, b"\x55"), (IP, b"\x81"), (ETHERNET, b"\x00")]),
        "stopped-41-one": b"\x08" + EXAMPLE,
        "stopped-41-two": b"\x00\x08" + EXAMPLE,
        "stopped-42-kind-0": TOKEN + b"\x00\x00\x08" + EXAMPLE,
        "stopped-42-kind-4": TOKEN + b"\x04\x00\x08" + EXAMPLE,
        "stopped-42-three-octets": b"\x00\x00\x00",
        "stopped-42-octet-0A": TOKEN + b"\x00\x00\x00\x01\x0a\x00\x08" + EXAMPLE,
        "stopped-42-octet-0E": TOKEN + b"\x00\x00\x00\x01\x0e\x00\x08" + EXAMPLE,
        "stopped-43-none": b"\x01\x00\x00" + EXAMPLE,
        "stopped-43-1515": record(BUS, bytes(MOST + 1)) + EXAMPLE,
        "stopped-43-timed-none": record(BUS, b"", 1) + EXAMPLE,
        "stopped-43-timed-1515": record(BUS, bytes(MOST + 1), 1) + EXAMPLE,
        "stopped-44-one-short": TOKEN[1:] + b"\x01\x00\x08" + EXAMPLE,
        "stopped-44-all": b"\x01\x05\xea",
        "stopped-44-timed-one-short": record(BUS, TOKEN, 1)[1:] + EXAMPLE,
        "stopped-44-part-of-a-time": record(BUS, TOKEN, 1)[len(TOKEN) + 2 :] + EXAMPLE,
        "stopped-44-timed-all": b"\x0b\x00\x01",
        "length-low-octet-first": TOKEN + b"\x01\x08\x00" + EXAMPLE,
        "full": FULL_LOG,
        "long": b"\x00" + FULL_LOG,
        "one-octet": b"\x08",
        "two-octets": b"\x00\x08",
    }
