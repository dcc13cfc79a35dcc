"""The stored runs, and what is asked of each."""

from chance import Chance
from finder import NONE, Report, calls, reports
from frames import HEAD, acceptable, headed, same_anew, written
from parts import Parts

OTHER = {"g": "h", "h": "g"}


class List:
    """Cases under a rule: heading, kind, rule, number (a place or the size of a list) and run; each is there once."""

    def __init__(self, rule):
        self.rule = rule
        self.headings = {}

    def add(self, heading, kind, number, run):
        self.headings.setdefault((kind, self.rule, number, run), heading)

    def find(self, heading, run, place=0):
        self.add(heading, "F", place, run)

    def steps(self, heading, run, place=0):
        self.add(heading, "N", place, run)

    def read(self, heading, run, spare=0):
        """The whole reading, with so many numbers more in the lent list than it needs, or fewer."""
        self.add(heading, "R", max(0, 2 * len(reports(self.rule, run)) + spare), run)

    def ask(self, heading, run):
        """All three, from the run's start."""
        self.find(heading, run)
        self.steps(heading, run)
        self.read(heading, run)


def token(rule, source=5):
    return written(rule, 0, 16, source)


def request(rule):
    """A data frame, with 55 in its data."""
    return written(rule, 5, 16, 5, bytes.fromhex("0104000301 0c0c0000000119 55"))


def single_frames(add, rule, draw):
    add.ask("no octet", b"")
    for kind in range(8):
        add.ask("each type, with and without data", written(rule, kind, 16, 5))
        add.ask("each type, with and without data", written(rule, kind, 16, 5, b"\x01\x22\x30"))
    for kind in (8, 9, 126, 127, 128, 129, 254, 255):
        add.ask("types 8, 127, 128, 255 and beside them", written(rule, kind, 16, 5) + token(rule))
    add.ask("types 8, 127, 128, 255 and beside them", b"".join(written(rule, kind, 16, 5) for kind in range(256)))
    for source in range(256):
        add.find("every source", token(rule, source))
    add.ask("every source", b"".join(token(rule, source) for source in range(256)))
    for length in (0, 1, 2, 3, 254, 255, 256, 257, 499, 500, 501, 502, 503, 1000):
        frame = written(rule, 6, 16, 5, bytes(length))
        add.ask("data of 0 to 1000 octets", frame)
        add.ask("data of 0 to 1000 octets", frame + token(rule))


def ends(add, rule, draw):
    frames = token(rule) + request(rule)
    for count in range(len(frames)):
        add.steps("cut at every octet", frames[:count])
    for last in (b"\x55", b"\x55\x55", HEAD, b"\x55" + HEAD, HEAD + b"\x55", HEAD + HEAD, b"\xff\xff"):
        for run in (last, token(rule) + last, request(rule) + last, last + token(rule), last + token(rule) + last):
            add.ask("parts of a head before and after frames", run)
    for length in (1, 2, 3, 500, 501):
        cut = written(rule, 6, 16, 5, b"\x11" * length)[:-1]
        add.ask("frames that run off the end", cut)
        add.ask("frames that run off the end", token(rule) + cut)
        for count in (8, 9, len(cut)):
            add.ask("frames that run off the end", cut[:count] + request(rule))
        open_header = headed(rule, 6, 16, 5, length + 30)
        add.ask("frames that run off the end", open_header + token(rule) + request(rule))


def skipped(add, rule, draw):
    heading = "good frames after a broken header or inside its data"
    inside = token(rule) + b"\x11" * 30 + request(rule)
    for length in (20, 60, 66, 67, 501, 502, 65535):
        header = headed(rule, 5, 16, 5, length)
        wrong = header[:7] + bytes([header[7] ^ 0x10])
        for front in (header, wrong):
            add.ask(heading, front + inside)
            add.ask(heading, front + inside + b"\x00" * 600 + token(rule))
            add.ask(heading, front + front + inside)
    frame = written(rule, 6, 16, 5, inside)
    add.ask(heading, frame)
    add.ask(heading, frame + token(rule))
    add.ask(heading, frame[:-1] + bytes([frame[-1] ^ 1]) + token(rule))
    for kind, source in ((8, 5), (128, 5), (5, 255)):
        add.ask(heading, written(rule, kind, 16, source, inside) + token(rule))


def seams(add, rule, draw):
    heading = "55 or 55 FF at a frame's end"
    for _ in range(12):
        frame = draw.frame_ending(lambda frame: frame[-1] == 0x55)
        add.ask(heading, frame + frame + token(rule))
        frame = draw.frame_ending(lambda frame: frame[-3:-1] == HEAD)
        add.ask(heading, frame + token(rule) + frame)
    if rule == "g":
        for source in range(255):
            if token(rule, source)[-1] == 0x55:
                add.ask(heading, token(rule, source) * 3)


def other_rule(add, rule, draw):
    other = OTHER[rule]
    for run in (token(other), request(other), token(other) + token(rule), request(rule) + request(other) + token(rule)):
        add.ask("frames of the other rule", run)
    for _ in range(20):
        mixed = b"".join(Parts(draw.one_of("gh"), draw.chance).small_frame() for _ in range(6))
        add.read("frames of the other rule", mixed)


def places(add, rule, draw):
    heading = "from every place, from the end and beyond it"
    for run in (token(rule) + request(rule), draw.sparks(3) + token(rule) + draw.sparks(3) + request(rule)):
        for place in range(len(run) + 3):
            add.find(heading, run, place)
        for place in (0, 1, len(run) - 1, len(run), len(run) + 1, 0xFFFF, 0x10000, 0xFFFFFFFF):
            add.find(heading, run, place)
            add.steps(heading, run, place)
    for place in (0, 1):
        add.find(heading, b"", place)


def lists(add, rule, draw):
    heading = "lent lists of other sizes"
    for count in (0, 1, 2, 5):
        run = draw.sparks_and_frames(count)
        for spare in (-2, -1, 0, 1, 2, 9):
            add.read(heading, run, spare)
        add.read(heading, run, -2 * len(reports(rule, run)))
    long = written(rule, 6, 16, 5, b"\x11" * 501) * 128
    for spare in (-1, 0, 1):
        add.read(heading, long, spare)


def noisy(add, rule, draw):
    for _ in range(60):
        run = draw.sparks_and_frames(1 + draw.below(6)) + draw.spark()
        add.ask("frames among sparks", run)
        add.read("the same with octets changed, left out or put in", draw.with_changes(run))
    for _ in range(200):
        good = b"".join(draw.small_frame() for _ in range(1 + draw.below(4)))
        add.read("frames one after another, with octets changed, left out or put in", draw.with_changes(good))
    for _ in range(40):
        add.read("sparks alone", draw.sparks(1 + draw.below(8)))


def long_runs(add, rule, draw):
    heading = "65,534 and 65,535 octets"
    tokens = token(rule) * 8192
    add.ask(heading, tokens[:65535])
    for zeros in (65526, 65527):
        add.ask(heading, b"\x00" * zeros + token(rule))
    add.find(heading, tokens[:65535], 65527)
    add.find(heading, tokens[:65535], 65535)
    for unit in (HEAD, headed(rule, 5, 16, 5, 501), headed(rule, 5, 16, 255, 0)):
        add.read(heading, (unit * 32768)[:65535])
    frames = b"".join(written(rule, 6, 16, i, bytes([i]) * 501) for i in range(8))
    add.ask(heading, (frames * 17)[:65535])
    block = draw.sparks_and_frames(120)[:2000]
    add.ask(heading, (block * 33)[:65535])
    heading = "65,536 octets and more, refused"
    for run in (tokens, tokens + b"\x55", b"\x00" * 65536, (block * 33)[:65536]):
        add.ask(heading, run)
        add.find(heading, run, 65537)
        add.read(heading, run, 6)


def demand_3(rule, damage, frames):
    """The run of some damage and the frames written behind it, and that demand 3 holds of it."""
    frames = [written(rule, *what) for what in frames]
    run = damage + b"".join(frames)
    assert len(run) <= 65535 and all(frame.rfind(HEAD) == 0 and frame[4] < 255 for frame in frames)
    starts, place = [], len(damage)
    for frame in frames:
        starts.append(Report(place, len(frame)))
        place += len(frame)
    *found, last = calls(rule, run)
    late = len(damage) + 510
    assert last == NONE
    assert [report for report in found if report.place >= late] == [start for start in starts if start.place >= late]
    for place, count in found:
        frame = run[place : place + count]
        assert acceptable(rule, frame) and same_anew(rule, frame)
    return run


def damaged(add, rule, draw):
    heading = "demand 3: damage, then written frames"
    for front in (b"", draw.sparks(4), headed(rule, 5, 16, 5, 501), token(rule) + HEAD):
        add.ask(heading, demand_3(rule, front, []))
    for _ in range(150):
        damage = b"".join(draw.one_of([draw.spark, draw.small_frame])() for _ in range(draw.below(6)))
        frames = [draw.sent_once() for _ in range(draw.below(16))]
        add.read(heading, demand_3(rule, damage, frames))
    over = "demand 3: the damage holds a false frame that swallows a real head"
    count = 0
    while count < 150:
        before = draw.sparks(draw.below(3))
        damage = before + draw.false_front()
        frames = draw.closed(damage, len(before), [draw.sent_once() for _ in range(1 + draw.below(9))])
        run = demand_3(rule, damage, frames)
        if reaches_over(rule, run, len(damage)):
            add.read(over, run)
            add.steps(over, run)
            count += 1
    filled = draw.octets(7), [(0, 16, 5, b"")] * 8191
    add.read(heading, demand_3(rule, *filled))
    if rule == "g":
        add.ask(over, lost_token())


def reaches_over(rule, run, d):
    """Whether a report starts in the first d octets of a run and ends behind the head that stands there."""
    return any(place < d and d + 2 <= place + count for place, count in reports(rule, run))


def lost_token():
    """Seven octets of damage, a header of 501 data octets whose check is the 55 of the head behind it; a frame of 493
    data octets; a token, lost though no octet of it is damaged. The frame's addresses were found by trying all of them:
    the false frame's data check is the frame's last octet and the token's first."""
    damage = headed("g", 6, 37, 5, 501)[:7]
    run = demand_3("g", damage, [(5, 66, 100, b"\x11" * 493), (0, 16, 5, b"")])
    assert calls("g", run) == [Report(0, 511), NONE]
    return run


def stored():
    """All cases. One stream of chance makes them, in this order."""
    chance = Chance()
    cases = []
    for rule in ("h", "g"):
        add = List(rule)
        for part in (single_frames, ends, skipped, seams, other_rule, places, lists, noisy, long_runs, damaged):
            part(add, rule, Parts(rule, chance))
        cases += [(heading, *case) for case, heading in add.headings.items()]
    return cases
