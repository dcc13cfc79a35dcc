"""What the program missed_changes must print, crates/missed_changes/stdout: the changes of one header octet after which
a frame is still read."""

from checks import data_check, header_check
from frames import HEAD, length_of, octet_count, written

# The rules in order, by their letters and names; addresses, destination first; data.
RULES = ("h", "house"), ("g", "Annex G")
ADDRESSES = (0x10, 0x05), (0xFF, 0x82)
DATA = b"", b"\x01\x02\x03"


def is_read(rule, frame):
    """No question of reading fails."""
    length = length_of(frame)
    return (
        frame.startswith(HEAD)
        and frame[2] <= 7
        and frame[7] == header_check(rule, frame[2:7])
        and len(frame) == octet_count(length)
        and (length == 0 or frame[8 + length :] == data_check(rule, frame[8 : 8 + length]))
    )


def changes(frame):
    """Every other octet at each of the five places of the header fields."""
    for place in range(2, 7):
        for octet in range(256):
            if octet != frame[place]:
                yield frame[:place] + bytes([octet]) + frame[place + 1 :]


def header(frame):
    """The first eight octets, in digits."""
    return frame[:8].hex(" ").upper()


def lines():
    """A line for each change that is read, and one for each rule that counts."""
    for rule, name in RULES:
        tried = read = 0
        for kind in range(8):
            for destination, source in ADDRESSES:
                for data in DATA:
                    frame = written(rule, kind, destination, source, data)
                    for changed in changes(frame):
                        tried += 1
                        if is_read(rule, changed):
                            read += 1
                            yield f"{header(frame)} read as {header(changed)}"
        yield f"{name}: {tried} changes, {read} read"
