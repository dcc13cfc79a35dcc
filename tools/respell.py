#!/usr/bin/env python3
"""Brings this repository's own definitions and lemmas to the kit's spelling: words in snake case, a prime as an apostrophe.

usage: python3 tools/respell.py        once, at the top, right after the kit's port.py

It turns the edits of must-fail/ too, as port.py and this script spell the files that they change.

A name is this repository's own where a file of specs/ or proofs/ declares it and the file at hand does not import it from the
library. Types, modules, source names and the names that Rattle makes keep their spelling. A lemma that would have a definition's
name gets `_lem`. It stops where two names fall together.
"""

import os
import re
import sys

WORD = r"[^\W\d][\w'′]*(?:-[\w'′]+)*"
DECLARED = re.compile(r"\s*(?:(?:abbrev|unfoldable|pub)\s+)*(" + WORD + r")\s+:\s")
IMPORTED = re.compile(r"^\s*(?:pub |ghost )*use ([^\s{]+)\.\{([^}]*)\}", re.M)
TOKEN = re.compile(r"(?<![\w'′-])" + WORD + r"(?![\w'′-])")
# A lemma of one crate that would have the name of that crate's definition.
LEMMAS = {"padding": {"one_more": "one_more_lem"}}
# Members of a record whose new name a definition beside them has.
MEMBERS = {"header-bits": "bits_in_header", "data-bits": "bits_in_data"}
# Definitions whose new name stands in other crates alone.
APART = {"oneMore", "laidOut"}


def snake(name):
    """The name in snake case: a word begins at a capital, at a number behind one of several words, and behind a dash."""
    new = name.replace("-", "_").replace("′", "'")
    if re.search(r"[a-z0-9][A-Z]", new):
        new = re.sub(r"(?<=[a-z])(?=\d)", "_", new)
    return re.sub(r"(?<=[a-z0-9])(?=[A-Z])|(?<=[A-Z])(?=[A-Z][a-z])", "_", new).lower()


def turn_edit(line, names):
    """A text of an edit as port.py and this script spell the file that it changes."""
    line = re.sub(r"(?<![\w'])_([^\w\s,{}]+)_(?!\w)", r"◌\1◌", line).replace("getD", "get_or").replace("the-variants", "TheVariants")
    line = re.sub(r"Rattle·(\w+)(?:·specs\.specs|·proofs\.proofs|\.specs|\.proofs)", lambda m: f"Rattle.{m[1]}." + ("proofs" if "proofs" in m[0] else "specs"), line)
    line = re.sub(r"(?<=[\w)»]) \.(?=[«\w])", ".", line)
    line = re.sub(r"now \((\w+)\.exit\)", r"\1.new", re.sub(r"now \((\w+)\.entry\)", r"\1.now", line))
    line = re.sub(r"now \((\w+)\.(\w+)\)", r"\1.\2.now", line)
    line = re.sub(r"λ r\. ⌜ (.*) ⌝", lambda m: re.sub(r"\br\b", "result", m[1]), line)
    for _ in range(2):
        line = re.sub(r"(?<=[\s(])\(([a-z]\w*(?:\.[«\w»]+)+)\)", r"\1", line)
    line = re.sub(r"«(\w+)»", r"\1", line) if "is_valid" in line or "byte_distribution" in line or "longest_run" in line else line
    return TOKEN.sub(lambda m: names.get(m[0], snake(m[0]) if m[0][0].islower() and "-" not in m[0] else m[0]), line)


def files(ends):
    for folder, inner, names in os.walk("crates"):
        inner[:] = sorted(d for d in inner if d != "out")
        for name in sorted(names):
            if name.endswith(ends):
                yield os.path.join(folder, name)


def text_of(path):
    with open(path, encoding="utf-8") as f:
        return f.read()


def imports(text, own):
    """Names that a text has from the library."""
    found = set()
    for path, names in IMPORTED.findall(text):
        parts = path.split(".")
        if parts[0] != "Rattle" or parts[1] not in own:
            found |= {n.strip().split(" as ")[-1] for n in names.split(",")}
    return found


def answers_folder(path):
    """A file of a function's own folder: its names are those that Rattle makes."""
    return re.search(r"/proofs/.+/", path)


def main():
    own = {d for d in os.listdir("crates")}
    declared, library = set(), set()
    for path in files(".antt"):
        text = text_of(path)
        library |= imports(text, own)
        if answers_folder(path):
            continue
        for line in text.split("\n"):
            m = DECLARED.match(line)
            if m and not line.lstrip().startswith("--"):
                declared.add(m[1])
    spelled = {n: snake(n) for n in declared if n[0].islower() and re.search(r"[A-Z′-]", n)}
    plain = {new for old, new in spelled.items() if "-" not in old}
    # a lemma that would have a definition's name gets `_lem`
    names = {old: new + "_lem" if "-" in old and (new in plain or new in declared) else new for old, new in spelled.items()} | MEMBERS
    fallen = {}
    for old, new in names.items():
        fallen.setdefault(new, []).append(old)
    bad = [(new, olds) for new, olds in sorted(fallen.items()) if len(olds) > 1 or (new in declared | library and olds[0] not in APART)]
    if bad:
        for new, olds in bad:
            print(f"respell: {', '.join(olds)} would fall together as {new}")
        return 1
    changed = 0
    for path in list(files((".antt", ".rt"))):
        text = text_of(path)
        foreign = imports(text, own)
        here = names | LEMMAS.get(path.split(os.sep)[1], {})

        def turned(m):
            made = answers_folder(path) and "-" in m[0] and text[: m.start()].endswith(".")
            return m[0] if made or m[0] in foreign else here.get(m[0], m[0])

        new = TOKEN.sub(turned, text)
        if new != text:
            with open(path, "w", encoding="utf-8") as f:
                f.write(new)
            changed += 1
    for path in files(".edit"):
        lines = text_of(path).split("\n")
        new = [turn_edit(x, names) if x.startswith(("old:", "new:")) else x for x in lines]
        if new != lines:
            with open(path, "w", encoding="utf-8") as f:
                f.write("\n".join(new))
            changed += 1
    print(f"respell: {len(names)} names, {changed} files")
    return 0


if __name__ == "__main__":
    sys.exit(main())
