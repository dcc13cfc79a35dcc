"""BACnet/IP messages and Ethernet frames: what is written, and what the validators find."""


def message(function, npdu):
    """A BVLC message."""
    return bytes([0x81, function]) + (4 + len(npdu)).to_bytes(2, "big") + npdu


def ip_errors(octets):
    """The errors of validation.rs, in document 01's order."""
    if len(octets) < 4:
        yield "under 4 octets"
        return
    if octets[0] != 0x81:
        yield "not 81"
    if octets[1] > 0x0D:
        yield "function above 0D"
    if int.from_bytes(octets[2:4], "big") != len(octets):
        yield "length"
    if len(octets) > 1497:
        yield "above 1497 octets"


def ethernet_frame(destination, source, payload):
    """An Ethernet frame, with zeros up to 60 octets."""
    return (destination + source + b"\x82\xdc\x82\x82\x03" + payload).ljust(60, b"\x00")


def ethernet_errors(octets):
    """The errors of validation.rs, in document 01's order."""
    if len(octets) < 17:
        yield "under 17 octets"
        return
    if len(octets) > 1514:
        yield "above 1514 octets"
    if octets[12:14] != b"\x82\xdc":
        yield "not 82 DC"
    if octets[14:17] != b"\x82\x82\x03":
        yield "not 82 82 03"
