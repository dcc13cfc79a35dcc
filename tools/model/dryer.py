"""A sample log: what a dryer's moisture controller hears on its bus, with sparks among the frames, and a torn front."""

import struct

from frames import written as frame
from links import ethernet_frame, message
from log import BUS, ETHERNET, IP, written

# Stations: the controller and the panel, which are masters, and two moisture sensors.
CONTROLLER, PANEL, WET_END, DRY_END = 5, 16, 130, 131

# Frame types of MS/TP.
TOKEN, POLL_FOR_MASTER, EXPECTING_REPLY, NOT_EXPECTING_REPLY = 0, 1, 5, 6

# A read of analog input 1, present value.
OBJECT = bytes.fromhex("0c000000011955")

# A Who-Is request for all networks.
WHO_IS = bytes.fromhex("0120ffff00ff1008")

# The second when the controller's clock was set. What it had heard before has no time.
CLOCK_SET = 1_790_000_000


def token(source, destination):
    """The token, handed on."""
    return frame("g", TOKEN, destination, source)


def asked(sensor, call):
    """The controller asks a sensor for its moisture."""
    return frame("g", EXPECTING_REPLY, sensor, CONTROLLER, bytes([0x01, 0x04, 0x02, 0x73, call, 0x0C]) + OBJECT)


def told(sensor, call, moisture):
    """The sensor tells it."""
    value = b"\x3e\x44" + struct.pack(">f", moisture) + b"\x3f"
    return frame("g", NOT_EXPECTING_REPLY, CONTROLLER, sensor, bytes([0x01, 0x00, 0x30, call, 0x0C]) + OBJECT + value)


def broadcast(npdu):
    """An Ethernet frame for all."""
    return ethernet_frame(b"\xff" * 6, bytes.fromhex("020000000010"), npdu)


def spark(chance):
    """A few octets that nobody sent."""
    return chance.octets(1 + chance.below(9))


def turn(call, wet, dry):
    """The token goes round once, and both sensors are read."""
    wet_end = asked(WET_END, call), told(WET_END, call, wet)
    dry_end = asked(DRY_END, call + 1), told(DRY_END, call + 1, dry)
    return [token(PANEL, CONTROLLER), *wet_end, *dry_end, token(CONTROLLER, PANEL)]


def broken(chance, sent):
    """A frame with one octet changed."""
    place = 8 + chance.below(len(sent) - 8)
    return sent[:place] + bytes([sent[place] ^ 0x20]) + sent[place + 1 :]


def records(chance):
    """What was heard, oldest first."""
    first = turn(1, 18.4, 15.2)
    second = turn(3, 18.1, 14.9)
    third = turn(5, 17.9, 14.8)
    yield BUS, b"".join(first)
    yield BUS, b"".join(sent + spark(chance) for sent in second)
    yield BUS, frame("g", POLL_FOR_MASTER, CONTROLLER + 1, CONTROLLER)
    yield IP, message(0x0B, WHO_IS)
    heard = [spark(chance), *third[:2], broken(chance, third[2]), third[3], spark(chance), *third[4:], spark(chance)]
    yield BUS, b"".join(heard), CLOCK_SET + 30
    yield ETHERNET, broadcast(WHO_IS), CLOCK_SET + 60
    yield BUS, chance.octets(40), CLOCK_SET + 61
    yield BUS, told(DRY_END, 8, 14.7), CLOCK_SET + 65


def torn_log(chance):
    """The log, of which the card has lost 29 octets at the front."""
    return written(records(chance))[29:]
