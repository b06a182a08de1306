#!/usr/bin/env python3
"""Brings this repository's own names in specs/ and proofs/ to snake case, and those of facts and types to upper camel case.

    python3 tools/snake_names.py          at the top, once, behind the toolchain's own port script

Only names that the repository declares and that have a hyphen are turned. Names that the check makes
(goals, loops, measures), functions of src/, strings, inputs and outputs keep their spelling.
"""

import glob
import re
import sys

DECLARES = re.compile(
    r"^(?P<indent>\s*)(?:abbrev |unfoldable )?(?:pub )?(?:abbrev |unfoldable )?(?:pub )?(?P<type>data |record )?"
    r"(?P<name>[A-Za-z][\w'\-]*)(?:\s*(?:\([^)]*\)|\{[^}]*\}))*\s*:\s(?P<of>.*)$"
)
WORD = r"(?<![\w'\-])%s(?![\w'\-])"


def files():
    for folder in ("specs", "proofs"):
        yield from sorted(glob.glob("crates/*/%s/**/*.antt" % folder, recursive=True))
    yield from sorted(glob.glob("crates/*/src/**/*.rt", recursive=True))


def read(path):
    with open(path, encoding="utf-8") as f:
        return f.read()


def made_by_the_check(path, of):
    return "/proofs/" in path and re.match(r"(goal|given|need)\b", of) is not None


def own_names():
    names = set()
    for path in files():
        if not path.endswith(".antt"):
            continue
        for line in read(path).splitlines():
            m = DECLARES.match(line)
            if m and "-" in m["name"] and not made_by_the_check(path, m["of"]):
                names.add(m["name"])
            for bound in re.findall(r"[({]([a-z][\w' \-]*-[\w' \-]*) : ", line):
                names |= {n for n in bound.split() if "-" in n}
            for bound in re.findall(r"(?:let|λ) ([a-z][\w'\-]*-[\w'\-]*)(?: :| =|\.)", line):
                names.add(bound)
    return names


def turned(name):
    parts = name.split("-")
    if name[0].isupper():
        return "".join(p[:1].upper() + p[1:] for p in parts)
    return "_".join(parts)


def main():
    names = own_names()
    new = {}
    for n in sorted(names):
        new.setdefault(turned(n), []).append(n)
    together = [olds for olds in new.values() if len(olds) > 1]
    if together:
        sys.exit("names that fall together: %s" % together)
    pattern = re.compile(WORD % ("(?:%s)" % "|".join(sorted(map(re.escape, names), key=len, reverse=True))))
    changed = 0
    for path in files():
        text = read(path)
        for old in set(pattern.findall(text)):
            if re.search(WORD % re.escape(turned(old)), text):
                print("look: %s: %s stands there already, and %s becomes it" % (path, turned(old), old))
        out = pattern.sub(lambda m: turned(m[0]), text)
        if out != text:
            changed += 1
            with open(path, "w", encoding="utf-8") as f:
                f.write(out)
    print("%d names, %d files" % (len(names), changed))


if __name__ == "__main__":
    main()
