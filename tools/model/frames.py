"""MS/TP frames: what is written, what the validator finds, which frames are acceptable."""

from checks import data_check, header_check

HEAD = b"\x55\xff"


def headed(rule, kind, destination, source, length):
    """The first eight octets of a frame."""
    header = bytes([kind, destination, source]) + length.to_bytes(2, "big")
    return HEAD + header + bytes([header_check(rule, header)])


def written(rule, kind, destination, source, data=b""):
    """A frame: data and data check only if there are data."""
    frame = headed(rule, kind, destination, source, len(data))
    return frame + data + data_check(rule, data) if data else frame


def length_of(frame):
    """The data length that a header says."""
    return int.from_bytes(frame[5:7], "big")


def octet_count(length):
    """The octets of a frame: 8, or 10 plus the length if that is above 0."""
    return 10 + length if length > 0 else 8


def errors(rule, frame):
    """The MS/TP validator's errors, in document 01's order."""
    if len(frame) < 8:
        yield "under 8 octets"
        return
    length = length_of(frame)
    if not frame.startswith(HEAD):
        yield "preamble"
    if 8 <= frame[2] <= 127:
        yield "type 8 to 127"
    if frame[4] == 255:
        yield "source 255"
    if length > 501:
        yield "length above 501"
    if frame[7] != header_check(rule, frame[2:7]):
        yield "header check"
    if len(frame) != octet_count(length):
        yield "size"
    data, sent = frame[8 : 8 + length], frame[8 + length : 10 + length]
    if length > 0 and len(sent) == 2 and sent != data_check(rule, data):
        yield "data check"


def acceptable(rule, frame):
    """The validator has no error, and the type is 0 to 7."""
    return not any(errors(rule, frame)) and frame[2] <= 7


def same_anew(rule, frame):
    """A frame's type, addresses and data, written anew, give the frame."""
    kind, destination, source = frame[2:5]
    return written(rule, kind, destination, source, frame[8 : 8 + length_of(frame)]) == frame
