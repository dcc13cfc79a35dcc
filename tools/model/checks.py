"""The check octets, bit by bit, as document 01 tells them."""

# The rules, by the letter that names them in a case: constants of header check and data check.
RULES = {"g": (0x81, 0x8408), "h": (0x55, 0xA001)}


def steps(constant, count, register):
    """So many steps: shift right; if the bit shifted out was 1, XOR the constant."""
    for _ in range(count):
        register, shifted_out = divmod(register, 2)
        if shifted_out == 1:
            register ^= constant
    return register


def check(bits, constant, octets):
    """Start with all bits one, XOR in each octet, take eight steps, complement at the end."""
    all_ones = 2**bits - 1
    register = all_ones
    for octet in octets:
        register = steps(constant, 8, register ^ octet)
    return register ^ all_ones


def header_check(rule, octets):
    """The check octet over the five octets of a header."""
    return check(8, RULES[rule][0], octets)


def data_check(rule, octets):
    """The two check octets over a frame's data, low octet first."""
    return check(16, RULES[rule][1], octets).to_bytes(2, "little")


# Trials (a) to (d) of document 01.
assert header_check("g", bytes.fromhex("0010050000")) == 0x8C
assert header_check("h", bytes.fromhex("0010050000")) == 0x9A
assert data_check("g", bytes.fromhex("012230")) == bytes.fromhex("10bd")
assert data_check("h", bytes.fromhex("012230")) == bytes.fromhex("c74b")
