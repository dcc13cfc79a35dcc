"""What the program check_tables must print, crates/check_tables/stdout: the entries of the check tables, worked out by
themselves. A register is a list of its bits, the lowest first, so no step is shared with checks.py or tables.py."""

# The tables in order: constant, and how many bits an entry has.
TABLES = (0x81, 8), (0x8408, 16), (0x55, 8), (0xA001, 16)


def bits_of(number, count):
    """The lowest bits of a number, so many."""
    return [number >> place & 1 for place in range(count)]


def entry(constant, count, octet):
    """An octet after eight steps, in a register of so many bits."""
    register = bits_of(octet, count)
    for _ in range(8):
        shifted_out, *register = [*register, 0]
        if shifted_out:
            register = [bit ^ other for bit, other in zip(register, bits_of(constant, count))]
    return sum(bit << place for place, bit in enumerate(register))


def lines():
    """An entry a line, two digits for header checks and four for data checks."""
    for constant, count in TABLES:
        for octet in range(256):
            yield f"{entry(constant, count, octet):0{count // 4}X}"
