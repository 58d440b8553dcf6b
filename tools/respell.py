#!/usr/bin/env python3
"""Brings the names of this repository's own definitions and lemmas to today's spelling.

A name that joins words by dashes, `type-after`, becomes `type_after`; a fact's, `Serves-all`, becomes `ServesAll`. Names of the library, and
names that the prover makes, stay. Run once, at the top of the repository, after the kit's port.py; it prints what it renamed.

usage: python3 tools/respell.py
"""

import glob
import re

# a name that would fall together with one of the library's
APART = {"bit-or": "bit-bit_or"}
# names that a proof gives to what it holds
HELD = "at-q at-r at-u at-reader for-mut in-safe is-k is-out more-seen no-f noted-so on-us on-vs yes-g".split()

SIGNATURE = re.compile(r"^\s*(?:(?:abbrev|unfoldable|pub|ruleset|data|record)\s+)*([^\s:(){}.,]+)\s*(?:\([^:]*:[^)]*\)\s*)*:\s+(.*)$")
NAME = re.compile(r"[A-Za-z_ℕ][A-Za-z0-9_'≡≤<ℕ]*(?:-[A-Za-z0-9_'≡≤<*ℕ]+)+(?![-\w'])")
QUOTED = re.compile(r"`[^`]*`")


def files(*patterns):
    return sorted(f for p in patterns for f in glob.glob(p, recursive=True) if "/out/" not in f)


def spelled(name):
    if name in APART:
        return APART[name]
    if name[0].isupper():
        return "".join(part[0].upper() + part[1:] for part in name.split("-"))
    return name.replace("-", "_")


def own_names():
    names = set(HELD)
    for path in files("crates/*/specs/**/*.antt", "crates/*/proofs/**/*.antt"):
        for line in open(path, encoding="utf-8"):
            m = SIGNATURE.match(line)
            if m and "-" in m.group(1) and NAME.fullmatch(m.group(1)) and not re.match(r"(goal|given)\.", m.group(2)):
                names.add(m.group(1))
    return names


def turned(text, names):
    return NAME.sub(lambda m: spelled(m.group(0)) if m.group(0) in names else m.group(0), text)


def line_turned(line, mark, names):
    code, comment, rest = line.partition(mark)
    return turned(code, names) + comment + QUOTED.sub(lambda m: turned(m.group(0), names), rest)


def main():
    names = own_names()
    for path in files("crates/*/specs/**/*.antt", "crates/*/proofs/**/*.antt", "crates/*/src/**/*.rt", "crates/*/must-fail/*.edit"):
        text = open(path, encoding="utf-8").read()
        mark = "//" if path.endswith(".rt") else "-- "
        new = "".join(line_turned(line, mark, names) for line in text.splitlines(keepends=True))
        if new != text:
            open(path, "w", encoding="utf-8").write(new)
    for name in sorted(names):
        print(name, spelled(name))


main()
