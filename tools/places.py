#!/usr/bin/env python3
"""Counts the places that docs/DESIGN-PASS.md speaks of, point by point, over src/ and proofs/ of every crate.

    tools/places.py [--list] [FOLDER]

FOLDER is a checkout (default: the one that this file is in). With --list each place is named. Exit status 0.
"""
import argparse, collections, glob, os, re, sys

p = argparse.ArgumentParser(description=__doc__, formatter_class=argparse.RawDescriptionHelpFormatter)
p.add_argument("--list", action="store_true")
p.add_argument("folder", nargs="?", default=os.path.join(os.path.dirname(os.path.abspath(__file__)), ".."))
a = p.parse_args()

# what a line of src/ looks like, for each kind of place
LINES = [
    (1, "case of an own enum that says none, or refuses",
     r"^\s+(Refused|None|Unknown|Absent|Failed|Unmatched|NotRead|NotWritten|StartReached)(\(u8\))?,$"),
    (1, "flag, or answer, as a field", r"^\s+(pub )?\w+: (bool|\w+Result|RecordRead|FrameFound),$"),
    (1, "number of a question told or tested",
     r"Refused\(\d+\)|return [1-9]\d*;|question [!=]= 0|_question\(.*\) [!=]= 0"),
    (1, "number for a kind", r"\b(kind|pattern|question|link)\w*: (u8|u32)\b"),
    (1, "constant that names a kind", r"^pub const [A-Z_0-9]+: (u8|u32|usize) = [0-9];$"),
    (3, "loop by `while` or `loop`", r"^\s+(while\b.*|loop) \{$"),
    (4, "conversion by `as`", r"\bas (u8|u16|u32|u64|usize|isize)\b"),
    (4, "conversion by a function of that name", r"fn (to_u8|from_u8|try_from|wide)\b"),
    (4, "answer spelled out", r"return (true|false);"),
    (6, "count as a field", r"^\s+(pub )?\w+_count: usize,$"),
    (6, "array of entries as a field", r"^\s+(pub )?\w+: \[\w+(<\w+>)?; \w+\],$"),
    (7, "switch on a kind or letter", r"match (kind|letter|step)\b"),
    (7, "pointer to a function", r"\bdyn\b|: fn\("),
]

places = collections.defaultdict(list)
functions = []
signatures = collections.defaultdict(list)
requires = collections.defaultdict(list)


def code(path):
    return [re.sub(r"//.*", "", line) for line in open(path, encoding="utf-8")]


# the functions of a file: name, line, parameters, body
def read_functions(path, lines):
    text = "".join(lines)
    for m in re.finditer(r"\bfn (\w+)\s*(<[^>]*>)?\s*\(", text):
        depth, i = 1, m.end()
        while depth:
            depth += {"(": 1, ")": -1}.get(text[i], 0)
            i += 1
        parameters = " ".join(text[m.end():i - 1].split())
        j = i
        while j < len(text) and not re.match(r"\n\s*\{\n|[^\n]*\) \{\n", text[j:]) and text[j] != ";":
            if text[j] == "{" and text[j:j + 2] == "{\n":
                break
            j += 1
        j = text.find("{\n", j)
        if j < 0:
            continue
        depth, k = 1, j + 1
        while depth and k < len(text):
            depth += {"{": 1, "}": -1}.get(text[k], 0)
            k += 1
        yield m.group(1), text.count("\n", 0, m.start()) + 1, parameters, text[j:k]


KEEP = {"if", "else", "while", "for", "in", "loop", "return", "let", "mut", "match", "as", "true", "false", "self"}


def shape(body):
    words = re.findall(r"[A-Za-z_]\w*|0x[0-9A-Fa-f]+|\d+|[^\s]", body)
    out = [w if w in KEEP or not re.match(r"[A-Za-z_0-9]", w) else ("0" if w[0].isdigit() else "x") for w in words]
    return " ".join(re.sub(r"x(:: x)+", "x", " ".join(out).replace(": :", "::")).split())


for path in sorted(glob.glob(os.path.join(a.folder, "crates/*/src/*.rt"))):
    where = os.path.relpath(path, a.folder)
    crate = where.split(os.sep)[1]
    lines = code(path)
    for i, line in enumerate(lines, 1):
        for point, what, pattern in LINES:
            for _ in re.findall(pattern, line.rstrip("\n")):
                places[point, what].append(f"{where}:{i}: {line.strip()}")
        m = re.match(r"\s+requires (\{.*)", line)
        if m:
            requires[crate, m.group(1).strip()].append(f"{where}:{i}")
    for name, line, parameters, body in read_functions(path, lines):
        if body.count("\n") >= 4:
            functions.append((shape(body), f"{where}:{line}: {name}"))
        named = re.findall(r"(\w+): ([^,()]+(?:\([^)]*\))?)", parameters)
        for one, two in zip(named, named[1:]):
            if not ("out" == one[0] or two[0] in ("at",)):
                signatures[crate, f"{one[0]}: {one[1]}, {two[0]}: {two[1]}"].append(f"{where}:{line}: {name}")

alike = collections.defaultdict(list)
for s, where in functions:
    alike[s].append(where)
for s, where in alike.items():
    if len(where) > 1:
        places[2, "functions alike but for names and numbers, in groups"].append(" ~ ".join(where))
for (crate, fact), where in sorted(requires.items()):
    if len(where) >= 3:
        places[5, "fact required by three functions or more of a crate"].append(f"{crate}: {fact} ({len(where)})")
for (crate, pair), where in sorted(signatures.items()):
    if len(where) >= 3:
        places[5, "neighbouring parameters of three functions or more of a crate"].append(f"{crate}: {pair} ({len(where)})")
for path in sorted(glob.glob(os.path.join(a.folder, "crates/*/proofs/**/*.antt"), recursive=True)):
    text = open(path, encoding="utf-8").read()
    where = os.path.relpath(path, a.folder)
    for m in re.finditer(r"^(?:abbrev )?pub ([\w-]+) : goal\.", text, re.M):
        places[8, "answer to a goal"].append(f"{where}: {m.group(1)}")

for key in sorted({(point, what) for point, what, _ in LINES} | set(places)):
    print(f"{key[0]}  {len(places[key]):4}  {key[1]}")
    if a.list:
        for where in places[key]:
            print(f"            {where}")
