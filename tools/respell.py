#!/usr/bin/env python3
"""Brings this repository's own definitions and lemmas to snake case.

usage: python3 tools/respell.py [TOP] [--dry]

Run once, right after /opt/rattle/port/port.py. Names are those that specs/ and proofs/ declare: definitions, lemmas,
constructors and fields. A hump becomes an underscore (gridOf, grid_of), a dash too (slot-lt, slot_lt). Types, goals and
whatever Rattle or its library names stay. Where a lemma and a definition would fall together, APART says what the lemma is called.
Pages in docs/ and README.md get the new names where they stand in backquotes. It prints each name that it turned.
"""
import os
import re
import sys

APART = {
    "corner-of": "corner_of_lem",
    "ends-from-number": "ends_from_number_lem",
    "number-from-ends": "number_from_ends_lem",
    "on-grid": "on_grid_lem",
    "scale-after": "scale_after_lem",
    "side-of": "side_of_lem",
}
# a parameter that is in camel case
PARAMETERS = {"endRow": "end_row"}
NAME = r"[A-Za-z][A-Za-z0-9_'′·-]*"
TOKEN = re.compile(r"[A-Za-z_◌≤≡<>+*][A-Za-z0-9_'′·◌≤≡≢<>+*-]*")


def files(top, *ends):
    for folder, dirs, names in os.walk(os.path.join(top, "crates")):
        dirs[:] = sorted(d for d in dirs if d != "out")
        for n in sorted(names):
            if n.endswith(ends):
                yield os.path.join(folder, n)


def read(p):
    with open(p, encoding="utf-8") as f:
        return f.read()


def declared(p):
    """The names that a file of specs/ or proofs/ declares, but for goals."""
    found = set()
    for line in read(p).split("\n"):
        m = re.match(r"\s*(?:(?:pub|abbrev|unfoldable|ruleset)\s+)*(" + NAME + r"(?:\s+" + NAME + r")*)\s+:(?=\s|$)\s*(.*)$", line)
        if m and not line.lstrip().startswith("--") and not re.match(r"(goal|need|given)\.", m.group(2)):
            found.update(m.group(1).split())
        m = re.match(r"\s*(?:pub\s+)?ruleset\s+(" + NAME + ")", line)
        if m:
            found.add(m.group(1))
    return found


def spelled(name):
    if name in APART:
        return APART[name]
    name = re.sub(r"(?<=[a-z0-9])([A-Z])", lambda m: "_" + m.group(1).lower(), name)
    return name.replace("-", "_").replace("′", "'")


def wanted(name):
    return name[0].islower() and (re.search(r"[A-Z′]", name) or re.search(r"[A-Za-z0-9]-[A-Za-z0-9]", name))


def turn(text, names, dashes=True):
    def one(m):
        t = m.group(0)
        if t in names and (dashes or "-" not in t):
            return names[t]
        return t
    return TOKEN.sub(one, text)


def main():
    args = [a for a in sys.argv[1:] if a != "--dry"]
    top = args[0] if args else "."
    own = set()
    for p in files(top, ".antt"):
        own |= declared(p)
    names = {n: spelled(n) for n in own if wanted(n)}
    names.update(PARAMETERS)
    plain = {n for n in own if n not in names}
    back = {}
    for n, to in names.items():
        back.setdefault(to, []).append(n)
    for to, froms in sorted(back.items()):
        if len(froms) > 1 or to in plain:
            print(f"falls together: {to} from {froms}{' and itself' if to in plain else ''}")
    for p in files(top, ".antt", ".rt"):
        lines = read(p).split("\n")
        seen = {t for l in lines for t in TOKEN.findall(l)}
        for n in sorted(seen & set(names)):
            if names[n] in seen:
                print(f"look: {p}: {names[n]} stands there beside {n}")
        new = []
        for line in lines:
            if p.endswith(".rt"):
                ghost = re.search(r"ghost use|requires|ensures|ghost ", line)
                new.append(turn(line, names, dashes=bool(ghost)))
                continue
            code, mark, comment = line.partition("--") if re.match(r"\s*--", line) else (line, "", "")
            new.append(turn(code, names) + mark + turn(comment, names, dashes=False))
        if "--dry" not in sys.argv and new != lines:
            with open(p, "w", encoding="utf-8") as f:
                f.write("\n".join(new))
    pages = [os.path.join(top, "README.md")]
    docs = os.path.join(top, "docs")
    if os.path.isdir(docs):
        pages += [os.path.join(docs, n) for n in sorted(os.listdir(docs)) if n.endswith(".md")]
    for p in pages:
        if os.path.exists(p) and "--dry" not in sys.argv:
            text = read(p)
            new = re.sub(r"`[^`\n]*`", lambda m: turn(m.group(0), names), text)
            if new != text:
                with open(p, "w", encoding="utf-8") as f:
                    f.write(new)
    for n in sorted(names):
        print(f"{n} -> {names[n]}")


main()
