#!/usr/bin/env python3
"""Brings the names of this repository's definitions and lemmas to Rattle's spelling: types in upper camel case, everything else in snake
case. Run once at the top of the repository, after the kit's port.py. Functions of src/, goals and other names that Rattle makes, strings
and comments of code keep theirs.

usage: python3 tools/respell.py [--list]
"""

import re
import sys
from pathlib import Path

# a name of antt: letters, digits, dashes, underscores and primes
NAME = r"[^\W\d](?:[\w'-]|(?<=\w)′)*"
SIGNATURE = re.compile(rf"^\s*(?:(?:abbrev|unfoldable|pub|where|let)\s+)*({NAME})\s*:(?![=:])\s*(.*)$")
ALIAS = re.compile(rf"\bas ({NAME})")
RECORD = re.compile(rf"^\s*(?:pub\s+)?(?:record|data)\s+({NAME})")
TOKEN = re.compile(rf"{NAME}")

# A name that would fall together with that of a variant.
BY_HAND = {"Wiped-out": "IsWipedOut"}


def files(suffix):
    return [p for p in sorted(Path("crates").rglob("*" + suffix)) if "out" not in p.parts]


def respelled(name, is_type):
    if name in BY_HAND:
        return BY_HAND[name]
    if is_type:
        return "".join(part[:1].upper() + part[1:] for part in name.split("-"))
    return name.replace("-", "_")


def is_a_type(lines, at, rest):
    """Whether the signature that begins at a line ends in a Type."""
    text = rest
    for line in lines[at + 1 :]:
        if not line.startswith("    ") or not line.strip():
            break
        text = line.strip()
    return re.search(r"(?:^|→\s*)Type\s+\d+$", text.strip()) is not None


def declared():
    """The names that specs/ and proofs/ declare, aliases too: each with whether it is a type, and where."""
    found = {}
    for path in files(".antt"):
        lines = path.read_text().split("\n")
        for at, line in enumerate(lines):
            if line.lstrip().startswith("--"):
                continue
            if line.startswith("use "):
                for alias in ALIAS.findall(line):
                    found.setdefault(alias, []).append((alias[0].isupper(), path))
                continue
            record = RECORD.match(line)
            if record:
                found.setdefault(record[1], []).append((True, path))
                continue
            signature = SIGNATURE.match(line)
            if signature and not re.search(r"\bgoal\.", signature[2][:60]):
                found.setdefault(signature[1], []).append((is_a_type(lines, at, signature[2]), path))
    return found


def in_antt(text, names):
    lines = []
    for line in text.split("\n"):
        code, dashes, comment = ("", line, "") if line.lstrip().startswith("--") else line.partition(" -- ")
        lines.append(TOKEN.sub(lambda m: names.get(m[0], m[0]), code) + dashes + comment)
    return "\n".join(lines)


def in_rattle(text, names):
    lines = []
    for line in text.split("\n"):
        code, slashes, comment = line.partition("//")
        parts = re.split(r'("(?:[^"\\]|\\.)*")', code)
        parts[::2] = [TOKEN.sub(lambda m: names.get(m[0], m[0]), part) for part in parts[::2]]
        lines.append("".join(parts) + slashes + comment)
    return "\n".join(lines)


def main():
    found = declared()
    names = {}
    for name, places in found.items():
        if "-" in name:
            kinds = {kind for kind, _ in places}
            names[name] = respelled(name, kinds == {True})
    if "--list" in sys.argv:
        tokens = {}
        for path in files(".antt") + files(".rt"):
            for token in TOKEN.findall(path.read_text()):
                tokens.setdefault(token, set()).add(str(path))
        turned = {}
        for old, new in sorted(names.items()):
            turned.setdefault(new, []).append(old)
            kinds = {kind for kind, _ in found[old]}
            if len(kinds) > 1:
                print("both a type and not:", old, sorted(str(p) for _, p in found[old]))
            if new in tokens:
                print("falls together:", old, "->", new, "|", *sorted(str(p) for _, p in found[old])[:2], "| with", *sorted(tokens[new])[:4])
        for new, olds in turned.items():
            if len(olds) > 1:
                print("two names fall together:", olds, new)
        for old, new in sorted(names.items()):
            print(old, "->", new)
        return
    for path in files(".antt"):
        text = path.read_text()
        path.write_text(in_antt(text, names))
    for path in files(".rt"):
        text = path.read_text()
        path.write_text(in_rattle(text, names))


main()
