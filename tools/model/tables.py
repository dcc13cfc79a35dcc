"""The check tables as constants, crates/crc_tables/src/tables.rt. No proof depends on this file."""

import textwrap

from checks import RULES, steps

NAMES = {"g": ("HEADER_ANNEX_G", "DATA_ANNEX_G"), "h": ("HEADER_HOUSE", "DATA_HOUSE")}

# How many bits an entry has, of a header check and of a data check, and how many columns a line, as rt fmt has it.
BITS = 8, 16
COLUMNS = 100


def table(name, constant, bits):
    """A table: every octet after eight steps."""
    numbers = " ".join(f"0x{steps(constant, 8, octet):0{bits // 4}X}," for octet in range(256))
    filled = textwrap.wrap(numbers, COLUMNS, initial_indent="    ", subsequent_indent="    ")
    return "\n".join([f"pub const {name}: [u{bits}; 256] = [", *filled, "];"])


def lines():
    """The file's first line, and the tables with an empty line between them."""
    yield "// The check tables: i after eight steps stands at i."
    yield "\n\n".join(table(*each) for rule in NAMES for each in zip(NAMES[rule], RULES[rule], BITS))
