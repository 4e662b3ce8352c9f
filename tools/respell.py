#!/usr/bin/env python3
"""Spells this repository's own definitions and lemmas as today's Rattle does.

usage: python3 tools/respell.py        at the top of the repository, once, right after the kit's port.py

A definition or lemma with a dash in its name gets snake case, or upper camel case if it names a fact or a type.
Names of src/, strings, and goals, which the check names, keep their spelling. It stops, and writes nothing, if two names would fall together.
"""

import os
import re
import sys

OPEN = r"(?<![\w'◌·-])"
CLOSE = r"(?![\w'◌·-])"
HEAD = re.compile(r"^(\s*)(?:(?:abbrev|unfoldable|opaque|pub|record|data|inductive)\s+)*([A-Za-z][\w']*(?:-[\w'≡≤<+*]+)+)(?=\s[^=]*:|\s*:)")
GOALS = {"Answers.antt", "Invariants.antt", "Proof.antt", "Choices.antt"}


def files(top):
    for folder, dirs, names in os.walk(os.path.join(top, "crates")):
        dirs[:] = sorted(d for d in dirs if d not in ("out", "must-fail", "data"))
        for name in sorted(names):
            if name.endswith((".rt", ".antt")):
                yield os.path.join(folder, name)


def defined(path, text):
    """The dashed names that a file of specs/ or a file of lemmas defines."""
    if not path.endswith(".antt") or os.path.basename(path) in GOALS:
        return
    for line in text.splitlines():
        head = HEAD.match(line)
        if head and not line.lstrip().startswith(("--", "let ", "use ")) and len(head.group(1)) <= 4:
            yield head.group(2)


def spelled(name):
    if name[0].isupper():
        first, *rest = name.split("-")
        return first + "".join(part[:1].upper() + part[1:] for part in rest)
    return name.replace("getD", "get_or").replace("okOr", "ok_or").replace("-", "_")


def code_of(line):
    """The part of a line of src/ that is neither a comment nor a string."""
    return re.sub(r'"(?:[^"\\]|\\.)*"|//.*', "", line)


def borrowed(text, own):
    """The names that a file takes from a library, as `use` lines say."""
    for path, names in re.findall(r"use ([\w.·+]+)\.\{([^}]*)\}", text):
        parts = path.split(".")
        if parts[0] != "Rattle" or parts[1] not in own:
            yield from (n.strip().split(" ")[0] for n in names.split(","))


def turned(path, text, table):
    word = re.compile(OPEN + "(" + "|".join(sorted(map(re.escape, table), key=len, reverse=True)) + ")" + CLOSE)
    if path.endswith(".antt"):
        return word.sub(lambda m: table[m.group(1)], text)
    lines = []
    for line in text.split("\n"):
        if code_of(line) == line:
            line = word.sub(lambda m: table[m.group(1)], line)
        elif word.search(line):
            print(f"look: {path}: not turned in a comment or a string: {line.strip()}")
        lines.append(line)
    return "\n".join(lines)


def main():
    top = os.getcwd()
    texts = {}
    for path in files(top):
        with open(path, encoding="utf-8") as f:
            texts[path] = f.read()
    table = {}
    for path, text in texts.items():
        for name in defined(path, text):
            table[name] = spelled(name)
    every = "\n".join(texts.values())
    clashes = []
    new = {}
    for old, to in sorted(table.items()):
        if to in new:
            clashes.append(f"{old} and {new[to]} would both be {to}")
        new[to] = old
        if re.search(OPEN + re.escape(to) + CLOSE, every):
            places = [os.path.relpath(p, top) for p, t in texts.items() if re.search(OPEN + re.escape(to) + CLOSE, t)]
            print(f"look: {old} -> {to} stands already in {', '.join(places[:6])}")
    if clashes:
        print("\n".join(clashes), file=sys.stderr)
        raise SystemExit(1)
    if "--list" in sys.argv:
        print("\n".join(f"{a} {b}" for a, b in sorted(table.items())))
        return
    own = set(os.listdir(os.path.join(top, "crates")))
    for path, text in texts.items():
        theirs = set(borrowed(text, own))
        to = turned(path, text, {a: b for a, b in table.items() if a not in theirs})
        if to != text:
            with open(path, "w", encoding="utf-8") as f:
                f.write(to)
    print(f"{len(table)} names")


if __name__ == "__main__":
    main()
