#!/usr/bin/env python3
"""Brings the repository's own definitions and lemmas to the spelling of today's Rattle: words in snake case. It was run once, right after the kit's
port.py, and is kept so that what it did can be seen and done again: python3 tools/respell.py [--list], at the top of the repository.

A name is one that a file of specs/ or proofs/ declares, or a field of a record there. sumTo becomes sum_to, left-le becomes left_le. Where two names
would fall together, as the definition headFits and the lemma head-fits, the lemma takes the ending _lem. Names of src/, names that Rattle makes and
names of the kit's library stay."""

import collections
import glob
import re
import sys

NAME = r"[A-Za-z][\w'⁺⁻]*(?:-[\w'⁺⁻]+)*|⊎_elim"
TOKEN = re.compile(r"(?<![\w'⁺⁻-])(?:" + NAME + ")")
DECLARED = re.compile(r"^[ ]*(?:(?:pub|abbrev|unfoldable|record|data) )*(" + NAME + r")(?: *[({].*)? *: ", re.M)
LIBRARY = re.compile(r"^(?:ghost )?use ([^\s{]+)\.\{([^}]*)\}", re.M)


def files(*patterns):
    for pattern in patterns:
        yield from sorted(glob.glob(pattern, recursive=True))


def read(path):
    with open(path, encoding="utf-8") as f:
        return f.read()


def snake(name):
    if not name[0].isupper():
        name = re.sub(r"(?<=[a-z0-9])([A-Z])", lambda m: "_" + m.group(1).lower(), name)
    return name.replace("-", "_")


def fields_at(text):
    """Where a record's fields are declared."""
    spots, inside, at = {}, False, 0
    for line in text.split("\n"):
        if re.match(r"\s*(?:abbrev |unfoldable )?(?:pub )?(?:record|data) ", line):
            inside = True
        elif inside and not line.strip():
            inside = False
        elif inside and (m := re.match(r"\s+(?:pub )?(" + NAME + r") :", line)):
            spots[at + m.start(1)] = m.group(1)
        at += len(line) + 1
    return spots


def declared():
    """The names that lemmas and definitions have, and those of fields."""
    names, fields = set(), set()
    for path in files("crates/*/specs/**/*.antt", "crates/*/proofs/**/*.antt"):
        text, own = read(path), path.endswith("/Proof.antt")
        spots = fields_at(text)
        fields |= set(spots.values())
        for m in DECLARED.finditer(text):
            line = text[m.start():text.find("\n", m.start())]
            if m.start(1) in spots or own and (re.search(r": (tie|goal)\.", line) or "statement M" in line):
                continue
            names.add(m.group(1))
    return names, fields


def is_word(name, names):
    """A definition keeps the plain word. port.py turned some hyphens already, so of handOf and hand_of the second was a lemma's."""
    if "-" in name:
        return False
    camel = re.sub(r"_([a-z])", lambda m: m.group(1).upper(), name)
    return camel == name or camel not in names or snake(name) != name


def table():
    names, fields = declared()
    turned, taken, near = {}, set(), collections.defaultdict(set)
    for path in files("crates/*/specs/**/*.antt", "crates/*/proofs/**/*.antt"):
        text = read(path)
        for name in set(TOKEN.findall(text)):
            near[name] |= brought(text)
    for name in sorted(names, key=lambda n: (not is_word(n, names), n)):
        new = snake(name)
        while new in taken or new != name and new in near[name]:
            new += "_lem"
        taken.add(new)
        if new != name:
            turned[name] = new
    return turned, {n: snake(n) for n in fields if snake(n) != n}


def brought(text):
    """Names that a file brings from the kit's library."""
    out = set()
    for m in LIBRARY.finditer(text):
        if not re.match(r"Rattle\.(?!std\b)", m.group(1)):
            out |= {item.split(" as ")[-1].strip() for item in m.group(2).split(",")}
    return out


def is_field(text, m, spots):
    before, after = text[:m.start()], text[m.end():]
    if m.start() in spots:
        return True
    return bool(re.match(r" =[ \n]", after) and re.search(r"([{;,]\s*|\n[ ]+)$", before[-200:]))


def respelled(text, turned, fields, foreign):
    spots = fields_at(text)

    def turn(m):
        old = m.group(0)
        if text[m.start() - 1:m.start()] == ".":
            return fields.get(old, old)
        if old in fields and is_field(text, m, spots):
            return fields[old]
        return old if old in foreign else turned.get(old, old)

    return TOKEN.sub(turn, text)


def main():
    turned, fields = table()
    names = declared()[0]
    if "--list" in sys.argv:
        for old, new in sorted({**fields, **turned}.items()):
            print(old, new)
        return
    for path in files("crates/*/specs/**/*.antt", "crates/*/proofs/**/*.antt", "crates/*/src/**/*.rt"):
        text = read(path)
        some = {o: n for o, n in turned.items() if path.endswith(".antt") or re.search("[a-z0-9][A-Z]", o)}
        if path.endswith(".rt"):  # words only stand in clauses and imports there
            some = {o: n for o, n in some.items() if "_" not in o}
        for alias in re.findall(r" as ([a-z]+[A-Z]\w*)[,}]", text):  # a name that one file gives
            some[alias] = snake(alias)
        new = respelled(text, some, fields, brought(text))
        had, met = set(TOKEN.findall(text)), set(TOKEN.findall(new))
        for name in sorted((set(turned.values()) & had & met) - set(turned)):
            if any(turned.get(o) == name for o in had):
                print(f"look: {path}: {name} stood there before")
        if new != text:
            with open(path, "w", encoding="utf-8") as f:
                f.write(new)
    for path in files("docs/*.md", "README.md", "tests/README.md"):
        text = read(path)
        words = {o: snake(o) for o in TOKEN.findall(text) if snake(o) in names}  # what port.py turned itself
        new = re.sub(r"`[^`\n]*`", lambda m: respelled(m.group(0), {**words, **turned}, fields, set()), text)
        if new != text:
            with open(path, "w", encoding="utf-8") as f:
                f.write(new)


main()
