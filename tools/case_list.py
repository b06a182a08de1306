"""Bytes as chunks, for sheet_cases.py and tables_cases.py, and a list of cases, for the latter.

A chunk is a pair: bytes, and how often they stand in a row. It is written in hex, with `*`
and the count where that is more than 1.
"""

import sys
from collections import Counter


def raw(digits, count=1):
    return [(bytes.fromhex(digits), count)]


def flat(chunks):
    return b"".join(part * count for part, count in chunks)


def times(chunks, count):
    return [(flat(chunks), count)]


def starred(text, count):
    return text + ("*%d" % count if count > 1 else "")


def written(chunks):
    return " ".join(starred(part.hex(), n) for part, n in chunks if part and n)


def read_back(text):
    out = b""
    for chunk in text.split():
        digits, _, count = chunk.partition("*")
        out += bytes.fromhex(digits) * int(count or 1)
    return out


class CaseList:
    """The lines of a list, and how often each way to be answered comes up."""

    def __init__(self):
        self.lines = []
        self.ways = Counter()
        self.seen = set()

    def heading(self, text):
        self.lines.append("# " + text)

    def add(self, subject, text, expected, way):
        """A line, unless its subject has one already."""
        if subject in self.seen:
            return
        self.seen.add(subject)
        self.ways[way] += 1
        self.lines.append((text + " = " + expected).lstrip())

    def show(self):
        print("\n".join(self.lines))
        cases = sum(self.ways.values())
        print("%d cases, %d ways" % (cases, len(self.ways)), file=sys.stderr)
