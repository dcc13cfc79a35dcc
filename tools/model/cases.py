"""The lines of the stored runs. A case and its answer are a line each:

    FR PLACE RUN   the finder from a place
    ANSWER
    NR PLACE RUN   the reader's steps from a place, until one is no report
    ANSWERS PPPP     each answer; the place where the reader stands in the end
    RR SIZE RUN    the whole reading, counted and into a lent list of that many numbers
    F NNNN F NNNN LIST   both counts of reports; the lent list
    E nn E nn LIST       or the question that refuses

In a case nothing stands between the words. R is the rule, `h` house or `g` Annex G. PLACE and SIZE have eight digits.

    RUN      PIECES (four digits), and for each piece TOTAL (eight digits) COUNT (four digits) OCTETS: a run is its
             pieces one behind another, a piece being so many octets told, over and over until there are TOTAL
    ANSWER   F PPPP CCCC, a report's place and octet count; N, "none"; E nn, the first question that fails
    LIST     the lent list, which was a5a5a5a5, and 4 numbers behind it
"""

import re
from collections import Counter

from finder import Refused, calls, find, reports

BEFORE = 0xA5A5A5A5
BEHIND = 4

# Octets that stand there eight times or more.
REPEATED = re.compile(rb"(.{1,2200}?)\1{7,}", re.DOTALL)


def pieces(run):
    """A run's pieces: what is told, and how many octets it makes."""
    at = 0
    for match in REPEATED.finditer(run):
        if at < match.start():
            yield run[at : match.start()], match.start() - at
        yield match[1], len(match[0])
        at = match.end()
    if at < len(run):
        yield run[at:], len(run) - at


def told(run):
    """A run as it stands in a case."""
    parts = list(pieces(run))
    assert b"".join((octets * total)[:total] for octets, total in parts) == run
    return f"{len(parts):04x}" + "".join(f"{total:08x}{len(octets):04x}{octets.hex()}" for octets, total in parts)


def steps(rule, run, place):
    """The reader's steps: the place stays where an answer is no report."""
    *found, last = calls(rule, run, place)
    end = found[-1].end if found else place
    return " ".join([*map(str, found), str(last), f"{end:04x}"])


def reading(rule, run, size):
    """The count, then the whole reading into a list of that size: nothing is written where 32 refuses."""
    last = calls(rule, run)[-1]
    numbers = [number for report in reports(rule, run) for number in report]
    count = last if isinstance(last, Refused) else f"F {len(numbers) // 2:04x}"
    fits = len(numbers) <= size
    lent = [BEFORE] * (size + BEHIND)
    if fits:
        lent[: len(numbers)] = numbers
    return " ".join([str(count), str(count if fits else Refused(32)), *(f"{number:04x}" for number in lent)])


ANSWERS = {"F": lambda *case: str(find(*case)), "N": steps, "R": reading}


def case_and_answer(heading, kind, rule, number, run):
    """A case's line and its answer's."""
    return f"{kind}{rule}{number:08x}{told(run)}", ANSWERS[kind](rule, run, number)


def table(cases):
    """How many cases of each kind and rule there are under each heading."""
    counts = Counter((heading, kind + rule) for heading, kind, rule, _, _ in cases)
    columns = ["Fh", "Fg", "Nh", "Ng", "Rh", "Rg"]
    yield "| runs | " + " | ".join(columns) + " |"
    yield "|---" * (1 + len(columns)) + "|"
    for heading in dict.fromkeys(case[0] for case in cases):
        yield f"| {heading} | " + " | ".join(str(counts[heading, column] or "") for column in columns) + " |"
