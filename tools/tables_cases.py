#!/usr/bin/env python3
"""Prints the tables that the program opening_cases opens, with what each must give.

    (python3 tools/sheet_cases.py; python3 tools/tables_cases.py) > crates/opening_cases/stdin

Each line is

    tables RUN | NAMES | MODULES | STARS | IMPORTS | EXPORTS = EXPECTED

RUN is bytes as chunks: bytes in hex, or bytes in hex, `*` and how often they stand in a row.
A list is records with blanks between them. A record is its numbers with `:` between them,
and `*` and how often it stands in a row:

    a name         offset and length of its bytes
    a module       kind (0 ES, 1 external, 2 empty), offset and length of its id's bytes
    a star record  owner, target
    an import      owner, symbol, target, name (65535: the namespace)
    an export      owner, name, symbol

Offsets and lengths have 64 bits and speak of RUN, kinds have 8 bits, all others have 16.
Owners and targets are numbers of modules. Lines that begin with `#` are headings.

Tables open, or are refused for their first fault, at a place: how many records stand before
the one at fault, through the five lists in this order. The faults:

    11  a name or an id that does not lie within RUN, where offset and length are added
        without any wrapping; a name of no bytes or more than 255, an id of none or more than
        64; a kind above 2
    12  an owner below the owner of an earlier record in the same list
    13  a name 0 other than `default`; a name with the bytes of an earlier one; no name at
        all, and then the place is the number of all records
    14  a record with too many before it in its list: 1,024, and 256 for a module
    15  an owner or target with no module; an export's name, or an import's but 65535, with
        no name
    16  an import of a symbol that its owner imports already, an export of a name that its
        owner exports already
    17  an owner that is external or empty; a star record whose target is external

There are three passes. The first goes through all records in order, and leaves out the
targets; of the faults of one record the smallest number is told. The second is the missing
name. The third goes through the targets, of all star records and then of all imports.

`faults` is a model of these rules, written from them. Its author had seen no part of the
program that opens tables: of other code only the model of sheets, the program opening_cases,
and the types of records and faults and the limits in the crate `graph`. The answers of the
cases written by hand are written by hand too, and the model is held to them.
"""

import random
import sys
from collections import Counter
from itertools import accumulate, combinations, groupby, permutations
from typing import NamedTuple

from case_list import CaseList, flat, read_back, starred, written

NAMES, MODULES, RECORDS = 1024, 256, 1024
LONGEST_NAME, LONGEST_ID = 255, 64
NAMESPACE = 65535
ES, EXTERNAL, EMPTY = 0, 1, 2
KINDS = {EXTERNAL: "external", EMPTY: "empty"}
TOP = 2**64 - 1


class Tables(NamedTuple):
    run: list  # chunks
    names: list  # (offset, length)
    modules: list  # (kind, offset, length)
    stars: list  # (owner, target)
    imports: list  # (owner, symbol, target, name)
    exports: list  # (owner, name, symbol)

    def lists(self):
        return self[1:]


# The model -----------------------------------------------------------------------------
#
# Each function gives all faults of a list, as (index, number, way).


def span_faults(word, data, spans, longest):
    for i, (offset, size) in enumerate(spans):
        if offset + size > len(data):
            yield i, 11, word + " past the run"
        if size == 0:
            yield i, 11, word + " of no bytes"
        if size > longest:
            yield i, 11, word + " too long"


def again_faults(number, word, keys):
    seen = set()
    for i, key in enumerate(keys):
        if key in seen:
            yield i, number, word + " again"
        seen.add(key)


def limit_faults(word, rows, limit):
    for i in range(limit, len(rows)):
        yield i, 14, "too many: " + word


def owner_faults(word, owners, kinds):
    for i, (owner, highest) in enumerate(zip(owners, accumulate(owners, max))):
        if owner < highest:
            yield i, 12, word + " owners fall"
        if owner >= len(kinds):
            yield i, 15, "owner of " + word
        elif kinds[owner] != ES:
            yield i, 17, word + " of " + KINDS.get(kinds[owner], "no kind")


def name_faults(data, names):
    yield from span_faults("name", data, names, LONGEST_NAME)
    texts = [data[offset : offset + size] for offset, size in names]
    if names and texts[0] != b"default":
        yield 0, 13, "first name"
    yield from again_faults(13, "name", texts)
    yield from limit_faults("name", names, NAMES)


def module_faults(data, modules):
    for i, (kind, _, _) in enumerate(modules):
        if kind not in (ES, EXTERNAL, EMPTY):
            yield i, 11, "kind"
    yield from span_faults("id", data, [id_span for _, *id_span in modules], LONGEST_ID)
    yield from limit_faults("module", modules, MODULES)


def star_faults(stars, kinds):
    yield from owner_faults("star", [owner for owner, _ in stars], kinds)
    yield from limit_faults("star", stars, RECORDS)


def import_faults(imports, kinds, names):
    yield from owner_faults("import", [owner for owner, _, _, _ in imports], kinds)
    yield from limit_faults("import", imports, RECORDS)
    yield from again_faults(16, "import", [(owner, symbol) for owner, symbol, _, _ in imports])
    for i, (_, _, _, name) in enumerate(imports):
        if name != NAMESPACE and name >= names:
            yield i, 15, "name of import"


def export_faults(exports, kinds, names):
    yield from owner_faults("export", [owner for owner, _, _ in exports], kinds)
    yield from limit_faults("export", exports, RECORDS)
    yield from again_faults(16, "export", [(owner, name) for owner, name, _ in exports])
    for i, (_, name, _) in enumerate(exports):
        if name >= names:
            yield i, 15, "name of export"


def target_faults(word, targets, kinds):
    for i, target in enumerate(targets):
        if target >= len(kinds):
            yield i, 15, "target of " + word
        elif word == "star" and kinds[target] == EXTERNAL:
            yield i, 17, "star at external"


def faults(t):
    """Every fault, as (pass, place, number, way)."""
    data, kinds, names = flat(t.run), [kind for kind, _, _ in t.modules], len(t.names)
    before = [sum(len(rows) for rows in t.lists()[:n]) for n in range(6)]
    first = (
        name_faults(data, t.names),
        module_faults(data, t.modules),
        star_faults(t.stars, kinds),
        import_faults(t.imports, kinds, names),
        export_faults(t.exports, kinds, names),
    )
    third = (
        (before[2], target_faults("star", [target for _, target in t.stars], kinds)),
        (before[3], target_faults("import", [target for _, _, target, _ in t.imports], kinds)),
    )
    for start, found in zip(before, first):
        yield from ((1, start + i, number, way) for i, number, way in found)
    if not t.names:
        yield 2, before[5], 13, "no name"
    for start, found in third:
        yield from ((3, start + i, number, way) for i, number, way in found)


def opened(t):
    """What opening tables gives, and in which way."""
    found = min(faults(t), default=None)
    if found is None:
        return "opens", "opens"
    _, place, number, way = found
    return "refused %d at %d in tables" % (number, place), way


# The list ------------------------------------------------------------------------------

CASES = CaseList()
heading = CASES.heading


def list_text(rows):
    """A list as a line writes it."""
    groups = ((row, len(list(equal))) for row, equal in groupby(rows))
    return " ".join(starred(":".join(map(str, row)), count) for row, count in groups)


def tables_text(t):
    parts = [written(t.run)] + [list_text(rows) for rows in t.lists()]
    return " ".join("tables {} | {} | {} | {} | {} | {}".format(*parts).split())


def list_back(text):
    rows = []
    for item in text.split():
        row, _, count = item.partition("*")
        rows += [tuple(map(int, row.split(":")))] * int(count or 1)
    return rows


def tables_back(text):
    """The tables that a line says, with the run in one chunk."""
    run, *lists = text.removeprefix("tables").split("|")
    return Tables([(read_back(run), 1)], *map(list_back, lists))


def add(t, expected, way):
    """A line of the list, unless the tables have one already."""
    text = tables_text(t)
    assert tables_back(text) == Tables([(flat(t.run), 1)], *map(list, t.lists()))
    CASES.add(text, text, expected, way)


def case(t, expected):
    """A case whose answer is given by hand."""
    got, way = opened(t)
    assert got == expected, "%s: %s, and the model says %s" % (tables_text(t)[:400], expected, got)
    add(t, expected, way)


# Most cases have this run, with the names D, X and Y and modules whose id is `m`.
RUN = [(b"defaultxym", 1)]
D, X, Y = (0, 7), (7, 1), (8, 1)
M, OUT, NIL = (ES, 9, 1), (EXTERNAL, 9, 1), (EMPTY, 9, 1)


def opens(names, modules=(), stars=(), imports=(), exports=(), run=RUN):
    case(Tables(run, names, modules, stars, imports, exports), "opens")


def refuses(number, place, names, modules=(), stars=(), imports=(), exports=(), run=RUN):
    t = Tables(run, names, modules, stars, imports, exports)
    case(t, "refused %d at %d in tables" % (number, place))


# A small graph with every sort of record.
SAMPLE = Tables(
    [(b"defaultteethclockdialsurveyorder", 1)],
    [(0, 7), (7, 5)],
    [(ES, 12, 5), (ES, 17, 4), (ES, 21, 6), (ES, 27, 5)],
    [(1, 2), (1, 3)],
    [(0, 0, 1, 1)],
    [(2, 1, 0), (3, 1, 0)],
)


def good_tables():
    heading("tables that open")
    case(SAMPLE, "opens")
    opens([D])
    opens([D, X, Y])
    opens([D, Y, X], [M])
    opens([D], [M, M, M])
    opens([D], [OUT])
    opens([D], [NIL])
    opens([D], [OUT, NIL, M], [(2, 1)])
    # names and ids are bytes of any kind
    odd = [(b"default\0\0\xff\xfe\n \x80", 1)]
    opens([D, (7, 1), (7, 2), (9, 2), (11, 1), (12, 1), (13, 1)], run=odd)
    opens([D], [(ES, 7, 1), (EXTERNAL, 7, 1), (EMPTY, 9, 5)], run=odd)
    # one name exported by two modules, one symbol imported by two
    opens([D], [M, M], (), (), [(0, 0, 1), (1, 0, 1)])
    opens([D], [M, M], (), [(0, 1, 0, 0), (1, 1, 0, 0)])
    opens([D], [M, OUT, M], (), (), [(0, 0, 1), (2, 0, 1)])
    opens([D], [M, M], (), [(0, 256, 0, 0), (0, 257, 0, 0), (1, 0, 0, 0), (1, 1, 0, 0)])
    # an import and an export that share a symbol, two exports that do
    opens([D], [M], (), [(0, 7, 0, 0)], [(0, 0, 7)])
    opens([D, X], [M], (), (), [(0, 0, 7), (0, 1, 7)])
    # names and symbols in any order
    opens([D, X, Y], [M], (), (), [(0, 2, 0), (0, 0, 9), (0, 1, 5)])
    opens([D], [M], (), [(0, 9, 0, 0), (0, 3, 0, 0), (0, 65535, 0, 0), (0, 0, 0, 0)])
    # one target and name under two symbols, also where only the higher byte differs
    opens([D], [M], (), [(0, 1, 0, 0), (0, 2, 0, 0)])
    opens([D], [M], (), [(0, 1, 0, 0), (0, 257, 0, 0), (0, 513, 0, 0), (0, 256, 0, 0)])
    opens([D], [M], (), [(0, 0, 0, NAMESPACE), (0, 65535, 0, NAMESPACE)])
    opens([D], [M], (), (), [(0, 0, 65535)])
    # star records: at itself, again, at an empty module, ahead and back
    opens([D], [M], [(0, 0)])
    opens([D], [M], [(0, 0)] * 3)
    opens([D], [M, NIL], [(0, 1)])
    opens([D], [NIL, M], [(1, 0)])
    opens([D], [M, M], [(0, 1), (1, 0)])
    opens([D], [M, M], [(0, 0), (0, 1), (0, 0), (1, 1), (1, 0), (1, 1)])
    # imports: from itself, from an external and an empty module
    opens([D], [M], (), [(0, 0, 0, 0)])
    opens([D], [M, OUT], (), [(0, 0, 1, 0)])
    opens([D], [OUT, M], (), [(1, 0, 0, NAMESPACE)])
    opens([D], [NIL, M], (), [(1, 0, 0, 0)])
    opens([D], [OUT, OUT, NIL, NIL, M], [(4, 2), (4, 3)], [(4, 0, 0, 0), (4, 1, 1, 0)])


def shared_spans():
    heading("spans that share bytes, or leave some out")
    opens([D, (0, 3), (2, 5), (1, 6), (6, 1), (0, 1)], [(ES, 0, 7), (ES, 3, 4), (ES, 0, 10)])
    opens([D, (0, 6), (0, 8), (1, 7), (0, 9), (0, 10)])
    opens([D, X], [(ES, 0, 7), (ES, 7, 1), (ES, 7, 1)])
    opens([(3, 7), (12, 1)], [(ES, 14, 1)], run=[(b"---default--x-m--", 1)])
    opens([(3, 7), (0, 3), (0, 2), (2, 2)], run=[(b"axedefault", 1)])
    opens([D], [(ES, 7, 64), (ES, 8, 64), (ES, 70, 1)], run=[(b"default", 1), (b"m", 65)])
    heading("a long run")
    far = [(b"\0", 100000), (b"defaultx", 1)]
    opens([(100000, 7), (100007, 1), (99999, 1), (99998, 2)], [(ES, 65536, 64)], run=far)
    opens([(100000, 7), (99800, 200), (0, 255)], [(ES, 0, 1), (EXTERNAL, 100007, 1)], run=far)
    refuses(13, 0, [(34464, 7)], run=far)  # 65,536 bytes before `default`
    refuses(13, 0, [(99999, 7)], run=far)
    refuses(13, 2, [(100000, 7), (0, 2), (99998, 2)], run=far)
    refuses(11, 0, [(100002, 7)], run=far)
    refuses(11, 1, [(100000, 7), (0, 100000)], run=far)
    refuses(11, 1, [(100000, 7), (0, 65537)], run=far)
    refuses(11, 1, [(100000, 7)], [(ES, 0, 65537)], run=far)


# Spans that leave a run of 10 bytes, and some that would not if the sum did wrap.
OUTSIDE = [
    (10, 1),
    (9, 2),
    (3, 8),
    (0, 11),
    (11, 1),
    (256, 1),
    (2**32, 7),
    (0, 2**32 + 7),
    (TOP, 1),
    (TOP, 2),
    (TOP, 8),
    (TOP - 6, 7),
    (TOP - 6, 14),
    (0, TOP),
    (1, TOP),
    (8, TOP),
    (TOP, TOP),
    (2**63, 2**63),
    (2**63, 2**63 + 7),
]
INSIDE = [(9, 1), (8, 2), (3, 7), (0, 10), (0, 1)]
NOTHING = [(0, 0), (7, 0), (9, 0), (10, 0), (11, 0), (TOP, 0)]


def bad_spans():
    heading("11: a name that does not lie within the run")
    for span in OUTSIDE:
        refuses(11, 1, [D, span, X])
        refuses(11, 0, [span])
    for span in INSIDE:
        opens([D, span])
    refuses(11, 0, [(0, 7)], run=[(b"defaul", 1)])
    refuses(11, 0, [(0, 1)], run=[])
    opens([D], run=[(b"default", 1)])
    heading("11: an id that does not lie within the run")
    for span in OUTSIDE:
        refuses(11, 3, [D, X], [M, (ES, *span)])
        refuses(11, 1, [D], [(EMPTY, *span), M])
    for span in INSIDE:
        opens([D], [(ES, *span), (EXTERNAL, *span), (EMPTY, *span)])
    heading("11: no bytes")
    for span in NOTHING:
        refuses(11, 1, [D, span])
        refuses(11, 2, [D], [M, (ES, *span)])
    refuses(11, 0, [(0, 0)])
    refuses(11, 0, [(0, 0)], run=[])
    refuses(11, 1, [D, (0, 0), (0, 0)])
    refuses(11, 0, [], [(ES, 0, 0)], run=[])


def bad_lengths():
    heading("11: the length of a name")
    long = [(b"default", 1), (b"a", 600)]
    opens([D, (7, 1), (7, 2), (7, 254), (7, 255)], run=long)
    opens([D, (352, 255)], run=long)
    for size in (256, 257, 263, 300, 511, 512, 600):
        refuses(11, 1, [D, (7, size), (7, 1)], run=long)
    refuses(11, 0, [(0, 263)], run=long)
    refuses(11, 0, [(0, 607)], run=long)
    refuses(11, 2, [D, (7, 255), (7, 256)], run=long)
    heading("11: the length of an id")
    opens([D], [(ES, 7, 1), (ES, 7, 63), (EXTERNAL, 7, 64), (EMPTY, 7, 64), (ES, 7, 64)], run=long)
    opens([D], [(ES, 543, 64)], run=long)
    for size in (65, 66, 128, 255, 256, 257, 320, 512):
        refuses(11, 2, [D, (7, 1)], [(ES, 7, size), (ES, 7, 1)], run=long)
    refuses(11, 3, [D], [M, OUT, (EXTERNAL, 7, 65)], run=long)
    refuses(11, 3, [D], [M, OUT, (EMPTY, 7, 65)], run=long)


def bad_kinds():
    heading("11: a kind")
    for kind in (3, 4, 16, 127, 128, 254, 255):
        refuses(11, 1, [D], [(kind, 9, 1)])
        refuses(11, 4, [D, X], [M, OUT, (kind, 9, 1), NIL])
    refuses(11, 1, [D], [(3, 9, 0)])
    refuses(11, 1, [D], [(255, 10, 1)])
    refuses(11, 1, [D], [(255, TOP, TOP)])
    refuses(11, 1, [D], [(3, 9, 1)], [(0, 0)])
    refuses(11, 0, [], [(3, 9, 1)])


# Four names and three modules, and records whose owners are given: each list below has a
# record of the last module in the lists before it.
FOUR, THREE = [D, X, Y, (9, 1)], [M, M, M]
STARS, IMPORTS = [(2, 0)], [(2, 0, 0, 0)]


def owned(owners):
    """The three ways to give records with these owners, and the place of the first."""
    yield 7, (FOUR, THREE, [(owner, 0) for owner in owners])
    yield 8, (FOUR, THREE, STARS, [(owner, n, 0, 0) for n, owner in enumerate(owners)])
    yield 9, (FOUR, THREE, STARS, IMPORTS, [(owner, n, 0) for n, owner in enumerate(owners)])


def falling_owners():
    heading("12: owners")
    for owners in ([2], [0, 0, 0], [0, 1, 2], [0, 2], [1, 1, 2], [2, 2, 2, 2]):
        for _, t in owned(owners):
            opens(*t)
    falls = [([1, 0], 1), ([0, 1, 0], 2), ([0, 2, 1], 2), ([2, 1, 0], 1), ([2, 0, 1], 1)]
    falls += [([2, 2, 0], 2), ([1, 1, 1, 0], 3), ([2, 1, 2, 1], 1), ([1, 2, 1, 2], 2)]
    for owners, index in falls:
        for place, t in owned(owners):
            refuses(12, place + index, *t)
    for high, low in ((255, 0), (255, 254), (128, 127), (128, 0)):
        refuses(12, 258, [D], [M] * 256, [(high, 0), (low, 0)])
        refuses(12, 258, [D], [M] * 256, (), [(high, 0, 0, 0), (low, 0, 0, 0)])
        refuses(12, 258, [D], [M] * 256, (), (), [(high, 0, 0), (low, 0, 0)])
    opens([D], [M] * 256, [(0, 0), (127, 0), (128, 0), (255, 0)])
    # what an owner falls from has no module either, and comes first
    for owners in ([4, 3], [65535, 0], [3, 2], [256, 255]):
        for place, t in owned(owners):
            refuses(15, place, *t)
    refuses(15, 1, [D], (), [(1, 0), (0, 0)])
    # the lists are apart
    opens([D], [M, M], [(1, 0)], [(0, 0, 0, 0)], [(0, 0, 0)])
    opens([D], [M, M], [(1, 0)], [(0, 0, 0, 0), (1, 0, 0, 0)], [(0, 0, 0), (1, 0, 0)])


def bad_names():
    heading("13: the first name")
    for other in (X, (0, 6), (0, 8), (1, 6), (1, 7), (0, 1), (6, 1)):
        refuses(13, 0, [other])
        refuses(13, 0, [other, D])
    for at in range(7):
        for bit in (1, 32, 128):
            data = bytearray(b"default")
            data[at] ^= bit
            refuses(13, 0, [D], run=[(bytes(data), 1)])
    for near in (b"DEFAULT", b"Default", b"default\0", b"\0default", b"tluafed", b"defaultdefault"):
        refuses(13, 0, [(0, len(near))], run=[(near, 1)])
        opens([D, (7, len(near))], run=[(b"default" + near, 1)])
    refuses(13, 0, [(7, 255)], run=[(b"default", 1), (b"a", 255)])
    opens([(255, 7)], run=[(b"a", 255), (b"default", 1)])
    heading("13: a name again")
    refuses(13, 1, [D, D])
    refuses(13, 1, [D, D, D])
    refuses(13, 2, [D, X, D])
    refuses(13, 2, [D, X, X])
    refuses(13, 3, [D, X, Y, X])
    refuses(13, 3, [D, X, Y, Y], [M], [(0, 0)])
    refuses(13, 3, [D, X, Y, D, Y])
    heading("13: a name again, at another offset")
    twice = [(b"default", 2)]
    refuses(13, 1, [D, (7, 7)], run=twice)
    refuses(13, 1, [(7, 7), D], run=twice)
    refuses(13, 2, [D, (1, 6), (8, 6)], run=twice)
    opens([D, (1, 7), (2, 7), (3, 7), (4, 7), (5, 7), (6, 7)], run=twice)
    repeats = [(b"default", 1), (b"ab", 8)]
    opens([D, (7, 1), (8, 1), (7, 2), (8, 2), (7, 3), (8, 3)], run=repeats)
    refuses(13, 7, [D, (7, 1), (8, 1), (7, 2), (8, 2), (7, 3), (8, 3), (9, 3)], run=repeats)
    refuses(13, 3, [D, (7, 1), (8, 1), (9, 1)], run=repeats)
    refuses(13, 2, [D, (7, 4), (19, 4)], run=repeats)
    heading("13: long names")
    longest = [(b"default", 1), (b"a", 509), (b"b", 1)]
    refuses(13, 2, [D, (7, 255), (261, 255)], run=longest)
    opens([D, (7, 255), (262, 255)], run=longest)
    opens([D, (262, 255), (7, 255), (7, 254), (263, 254)], run=longest)
    refuses(13, 3, [D, (262, 255), (7, 255), (8, 255)], run=longest)
    opens([D, (0, 255), (7, 255)], run=longest)
    heading("13: no name")
    refuses(13, 0, [])
    refuses(13, 0, [], run=[])
    refuses(13, 1, [], [M])
    refuses(13, 3, [], [M, OUT, NIL])
    refuses(13, 2, [], [M], [(0, 0)])
    refuses(13, 3, [], [M], [(0, 0), (0, 0)])
    refuses(13, 2, [], [M], (), [(0, 0, 0, NAMESPACE)])
    refuses(13, 5, [], [M, M], [(0, 1)], [(0, 0, 0, NAMESPACE), (1, 0, 0, NAMESPACE)])
    imports = [(n // 4, n, 0, NAMESPACE) for n in range(1024)]
    refuses(13, 2304, [], [M] * 256, [(0, 0)] * 1024, imports)
    # what is told before it, and behind it
    refuses(15, 1, [], [M], (), (), [(0, 0, 0)])
    refuses(15, 1, [], [M], (), (), [(0, 65535, 0)])
    refuses(15, 1, [], [M], (), [(0, 0, 0, 0)])
    refuses(15, 2, [], [M], (), [(0, 0, 0, NAMESPACE), (0, 1, 0, 65534)])
    refuses(15, 0, [], (), [(0, 0)])
    refuses(17, 1, [], [OUT], [(0, 0)])
    refuses(11, 0, [], [(ES, 10, 1)])
    refuses(13, 2, [], [M], [(0, 9)])
    refuses(13, 3, [], [M, OUT], [(0, 1)])
    refuses(13, 2, [], [M], (), [(0, 0, 9, NAMESPACE)])
    refuses(16, 2, [], [M], (), [(0, 0, 9, NAMESPACE), (0, 0, 0, NAMESPACE)])


# 1,024 names over distinct bytes, so that spans that differ give names that differ.
MANY_RUN = [(b"default" + bytes(range(128, 231)), 1)]
MANY_NAMES = [D] + [(7 + n, size) for size in range(1, 12) for n in range(93)]
ONE_MORE = (7, 12)


def many_names():
    heading("14: names")
    opens(MANY_NAMES, run=MANY_RUN)
    opens(MANY_NAMES, [M], (), [(0, 0, 0, 1023)], [(0, 1023, 0)], run=MANY_RUN)
    refuses(15, 1025, MANY_NAMES, [M], (), (), [(0, 1024, 0)], run=MANY_RUN)
    refuses(15, 1025, MANY_NAMES, [M], (), [(0, 0, 0, 1024)], run=MANY_RUN)
    refuses(13, 1023, MANY_NAMES[:1023] + [(7, 1)], run=MANY_RUN)
    refuses(11, 1023, MANY_NAMES[:1023] + [(7, 0)], run=MANY_RUN)
    longer = MANY_RUN + [(b"a", 256), (b"default", 1)]

    def more(number, *names):
        refuses(number, 1024, MANY_NAMES + list(names), run=longer)

    more(14, ONE_MORE)
    more(14, ONE_MORE, (8, 12))
    more(14, ONE_MORE, (7, 0))
    # with 11, and with 13
    more(11, (7, 0))
    more(11, (373, 1))
    more(11, (TOP, 2))
    more(11, (110, 256))
    more(13, D)
    more(13, (7, 1))
    more(13, (99, 11))
    more(13, (366, 7))
    refuses(14, 1024, MANY_NAMES + [ONE_MORE], [(3, 0, 1)], [(9, 9)], run=MANY_RUN)


def many_modules():
    heading("14: modules")
    opens([D], [M] * 256)
    opens([D], [M, OUT, NIL, OUT] * 64)
    opens([D], [OUT] * 255 + [M], [(255, 255)], [(255, 0, 255, 0)], [(255, 0, 0)])
    refuses(14, 257, [D], [M] * 257)
    refuses(14, 258, [D, X], [M] * 300)
    refuses(14, 256, [], [M] * 257)
    refuses(13, 256, [], [M] * 256)
    for other in (OUT, NIL):
        refuses(14, 257, [D], [other] * 257)
        refuses(14, 257, [D], [M] * 256 + [other])
    refuses(14, 257, [D], [M] * 257 + [(3, 9, 1)])
    refuses(14, 257, [D], [M] * 257, [(256, 0)])
    refuses(14, 257, [D], [M] * 257, [(1, 0), (0, 0)])
    # with 11
    for bad in ((3, 9, 1), (ES, 9, 0), (ES, 10, 1), (ES, TOP, 1), (255, TOP, TOP)):
        refuses(11, 257, [D], [M] * 256 + [bad])
        refuses(11, 256, [D], [M] * 255 + [bad, M])
    refuses(11, 257, [D], [M] * 256 + [(ES, 10, 65)], run=RUN + [(b"a", 65)])
    opens([D], [M] * 256, [(255, 255)])
    refuses(15, 257, [D], [M] * 256, [(256, 0)])
    refuses(15, 257, [D], [M] * 256, (), [(256, 0, 0, 0)])
    refuses(15, 257, [D], [M] * 256, (), (), [(256, 0, 0)])


def many_stars():
    heading("14: star records")
    full = [(0, 0)] * 1024
    opens([D], [M], full)
    opens([D], [M, M], full[:512] + [(1, 1)] * 512)
    opens([D], [M] * 256, [(n // 4, n % 256) for n in range(1024)])
    refuses(14, 1026, [D], [M], full + [(0, 0)])
    refuses(14, 1027, [D, X], [M], full * 2)
    refuses(14, 1027, [D], [M, M], full[:512] + [(1, 1)] * 513)
    refuses(14, 1281, [D], [M] * 256, [(n // 8, n % 256) for n in range(1025)])
    refuses(14, 1026, [D], [M], full + [(0, 0)], [(9, 9, 9, 9)], [(9, 9, 9)])
    # with 12, 15 and 17
    refuses(12, 1027, [D], [M, M], [(1, 0)] * 1024 + [(0, 0)])
    for other in (OUT, NIL):
        refuses(12, 1027, [D], [other, M], [(1, 1)] * 1024 + [(0, 1)])
        refuses(14, 1027, [D], [M, other], full + [(1, 0)])
        refuses(17, 1026, [D], [M, other], full[1:] + [(1, 0)])
    for owner in (1, 256, 65535):
        refuses(14, 1026, [D], [M], full + [(owner, 0)])
        refuses(15, 1025, [D], [M], full[1:] + [(owner, 0)])
    # with the targets of the last pass
    refuses(14, 1026, [D], [M], full + [(0, 1)])
    refuses(14, 1027, [D], [M, OUT], full + [(0, 1)])
    refuses(14, 1027, [D], [M, OUT], full + [(1, 9)])
    refuses(14, 1026, [D], [M], [(0, 1)] * 1025)
    refuses(15, 1025, [D], [M], full[1:] + [(0, 1)])
    refuses(17, 1026, [D], [M, OUT], full[1:] + [(0, 1)])


# An external module, ten ES modules that have all imports, and an empty one.
IMPORTERS = [OUT] + [M] * 10 + [NIL]
MANY_IMPORTS = [(1 + n // 100, n % 100, 1, 0) for n in range(1000)]
MANY_IMPORTS += [(10, 100 + n, 1, 0) for n in range(24)]


def many_imports():
    heading("14: imports")
    opens([D], IMPORTERS, (), MANY_IMPORTS)
    opens([D], [M], (), [(0, n, 0, 0) for n in range(1024)])

    def more(number, *imports):
        refuses(number, 1037, [D], IMPORTERS, (), MANY_IMPORTS + list(imports))

    more(14, (10, 200, 1, 0))
    more(14, (10, 200, 1, 0), (9, 0, 1, 0))
    # with 12, and more
    more(12, (9, 200, 1, 0))
    more(12, (9, 200, 1, 1))
    more(12, (9, 0, 1, 0))
    more(12, (0, 200, 1, 0))
    more(12, (9, 0, 99, 1))
    # with 15, 16, 17 and a target
    more(14, (10, 200, 1, 1))
    more(14, (12, 200, 1, 0))
    more(14, (10, 0, 1, 0))
    more(14, (10, 0, 1, 1))
    more(14, (11, 200, 1, 0))
    more(14, (11, 200, 1, 1))
    more(14, (10, 200, 99, 0))
    refuses(16, 1036, [D], IMPORTERS, (), MANY_IMPORTS[:1023] + [(10, 0, 1, 0)])
    refuses(15, 1036, [D], IMPORTERS, (), MANY_IMPORTS[:1023] + [(10, 200, 12, 0)])


# The same of exports, with 32 ES modules that export 32 names each, and a name left over.
EXPORTERS = [OUT] + [M] * 32 + [NIL]
MANY_EXPORTS = [(1 + n // 32, n % 32, 0) for n in range(1024)]


def many_exports():
    heading("14: exports")

    def full(*exports):
        return MANY_NAMES[:33], EXPORTERS, (), (), MANY_EXPORTS + list(exports), MANY_RUN

    opens(*full())
    refuses(14, 1091, *full((32, 32, 0)))
    refuses(14, 1091, *full((32, 32, 0), (31, 32, 0)))
    # with 12, and more
    refuses(12, 1091, *full((31, 32, 0)))
    refuses(12, 1091, *full((31, 33, 0)))
    refuses(12, 1091, *full((31, 0, 0)))
    refuses(12, 1091, *full((0, 32, 0)))
    # with 15, 16 and 17
    refuses(14, 1091, *full((32, 33, 0)))
    refuses(14, 1091, *full((32, 65535, 0)))
    refuses(14, 1091, *full((34, 32, 0)))
    refuses(14, 1091, *full((32, 0, 0)))
    refuses(14, 1091, *full((33, 32, 0)))
    refuses(14, 1091, *full((33, 33, 0)))
    almost = MANY_EXPORTS[:1023]
    refuses(16, 1090, MANY_NAMES[:33], EXPORTERS, (), (), almost + [(32, 0, 0)], MANY_RUN)
    # a module that exports nearly all names, and another
    all_names = [(0, n, 0) for n in range(1, 1024)]
    opens(MANY_NAMES, [M, M], (), (), all_names + [(1, 0, 0)], MANY_RUN)


def all_full():
    heading("all lists as long as they may be")
    modules = [OUT] + [M] * 254 + [NIL]
    stars, imports = [(1, 255)] * 1024, [(1 + n // 100, n % 100, 1, n) for n in range(1024)]
    opens(MANY_NAMES, modules, stars, imports, MANY_EXPORTS, MANY_RUN)
    refuses(14, 4352, MANY_NAMES, modules, stars, imports, MANY_EXPORTS + [(32, 32, 0)], MANY_RUN)
    imports[1023] = (11, 23, 256, 1023)
    refuses(15, 3327, MANY_NAMES, modules, stars, imports, MANY_EXPORTS, MANY_RUN)


def no_record():
    heading("15: an owner with no module")
    for owners in ([3], [4], [256], [65535], [3, 3]):
        for place, t in owned(owners):
            refuses(15, place, *t)
    for owners in ([0, 3], [2, 3], [0, 256], [1, 65535]):
        for place, t in owned(owners):
            refuses(15, place + 1, *t)
    refuses(15, 1, [D], (), [(0, 0)])
    refuses(15, 1, [D], (), (), [(0, 0, 0, 0)])
    refuses(15, 1, [D], (), (), [(0, 0, 0, NAMESPACE)])
    refuses(15, 1, [D], (), (), (), [(0, 0, 0)])
    heading("15: an export's name")
    opens([D, X, Y], [M], (), (), [(0, 2, 0)])
    for name in (3, 4, 256, 257, 65534, 65535):
        refuses(15, 4, [D, X, Y], [M], (), (), [(0, name, 0)])
        exports = [(0, 0, 0), (0, name, 0), (0, 1, 0)]
        refuses(15, 7, [D, X, Y], [M], [(0, 0)], [(0, 0, 0, 0)], exports)
    refuses(15, 2, [D], [M], (), (), [(0, 1, 0)])
    refuses(15, 2, [D], [M], (), (), [(0, 1, 0), (0, 1, 0)])
    heading("15: an import's name")
    opens([D, X, Y], [M], (), [(0, 0, 0, 2)])
    opens([D, X, Y], [M], (), [(0, 0, 0, NAMESPACE)])
    for name in (3, 4, 256, 257, 65534):
        refuses(15, 4, [D, X, Y], [M], (), [(0, 0, 0, name)])
        refuses(15, 6, [D, X, Y], [M], [(0, 0)], [(0, 0, 0, 0), (0, 1, 0, name), (0, 2, 0, 0)])
    refuses(15, 2, [D], [M], (), [(0, 0, 0, 1)])


def targets():
    heading("15: a target with no module")
    opens([D], [M, M, M], [(0, 2)], [(0, 0, 2, 0)])
    for target in (3, 4, 256, 257, 65535):
        refuses(15, 4, [D], [M, M, M], [(0, target)])
        refuses(15, 5, [D], [M, M, M], [(0, 0), (0, target), (2, 2)])
        refuses(15, 4, [D], [M, M, M], (), [(0, 0, target, 0)])
        refuses(15, 4, [D], [M, M, M], (), [(0, 0, target, NAMESPACE)])
        refuses(15, 6, [D], [M, M, M], [(0, 0)], [(0, 0, 0, 0), (0, 1, target, 0), (2, 0, 0, 0)])
    refuses(15, 2, [D], [M], [(0, 1)])
    refuses(15, 2, [D], [M], (), [(0, 0, 1, 0)])
    heading("17: a star record that aims at an external module")
    refuses(17, 3, [D], [OUT, M], [(1, 0)])
    refuses(17, 3, [D], [M, OUT], [(0, 1)])
    refuses(17, 4, [D], [M, OUT], [(0, 0), (0, 1)])
    refuses(17, 6, [D, X], [NIL, M, OUT], [(1, 0), (1, 2), (1, 1)])
    refuses(17, 257, [D], [M] * 255 + [OUT], [(0, 255)])
    opens([D], [M] * 255 + [OUT], (), [(0, 0, 255, 0)])
    opens([D], [M, NIL, OUT], [(0, 1)], [(0, 0, 1, 0), (0, 1, 2, 0)])
    heading("targets come last: all star records, then all imports")
    refuses(15, 3, [D], [M, OUT], [(0, 9)], [(0, 0, 9, 0)])
    refuses(17, 3, [D], [M, OUT], [(0, 1)], [(0, 0, 9, 0)])
    refuses(17, 4, [D], [M, OUT], [(0, 0), (0, 1)], [(0, 0, 9, 0)])
    refuses(15, 4, [D], [M, OUT], [(0, 0)], [(0, 0, 9, 0), (0, 1, 8, 0)])
    refuses(17, 3, [D], [M, OUT], [(0, 1), (0, 9)])
    refuses(15, 3, [D], [M, OUT], [(0, 9), (0, 1)])
    refuses(15, 4, [D], [M, M, OUT], [(0, 9), (1, 2), (1, 2)], [(0, 0, 9, 0)])
    refuses(15, 4, [D], [M, M, OUT], [(1, 9)], [(0, 0, 9, 0)])
    refuses(17, 5, [D], [M, M, OUT], [(0, 1), (1, 2)], [(0, 0, 9, 0), (1, 0, 9, 0)])
    refuses(16, 5, [D], [M, OUT], [(0, 9)], (), [(0, 0, 0), (0, 0, 0)])
    refuses(16, 5, [D], [M, OUT], [(0, 1)], (), [(0, 0, 0), (0, 0, 0)])
    refuses(15, 4, [D], [M, OUT], [(0, 1)], (), [(0, 1, 0)])
    refuses(17, 4, [D], [M, OUT], (), [(0, 0, 9, 0), (1, 0, 9, 0)])
    refuses(12, 4, [D], [M, M], [(1, 9), (0, 9)])
    refuses(12, 5, [D], [M, M], [(1, 9)], [(1, 0, 9, 0), (0, 0, 9, 0)])


def again():
    heading("16: an import again")
    refuses(16, 3, [D], [M], (), [(0, 0, 0, 0)] * 2)
    refuses(16, 3, [D], [M], (), [(0, 5, 0, 0)] * 4)
    refuses(16, 4, [D], [M, M], (), [(0, 5, 0, 0), (0, 5, 1, NAMESPACE)])
    refuses(16, 6, [D], [M], [(0, 0)] * 2, [(0, 5, 0, 0), (0, 6, 0, 0), (0, 5, 0, 0)])
    refuses(16, 3, [D], [M], (), [(0, 256, 0, 0)] * 2)
    refuses(16, 3, [D], [M], (), [(0, 65535, 0, 0)] * 2)
    refuses(16, 5, [D], [M, M], (), [(0, 1, 0, 0), (1, 1, 0, 0), (1, 1, 1, 0)])
    refuses(16, 6, [D], [M, M], (), [(0, 1, 0, 0), (1, 1, 0, 0), (1, 2, 0, 0), (1, 1, 1, 0)])
    some = [(0, n, 0, 0) for n in range(258)]
    opens([D], [M, M], (), some + [(1, 0, 0, 0)])
    refuses(16, 261, [D], [M, M], (), some + [(0, 0, 0, 0)])
    refuses(16, 261, [D], [M, M], (), some + [(0, 257, 0, 0)])
    heading("16: an export again")
    refuses(16, 3, [D], [M], (), (), [(0, 0, 0)] * 2)
    refuses(16, 3, [D], [M], (), (), [(0, 0, 0), (0, 0, 1)])
    refuses(16, 3, [D], [M], (), (), [(0, 0, 0), (0, 0, 1), (0, 0, 2)])
    refuses(16, 7, [D, X], [M], [(0, 0)], [(0, 0, 0, 0)], [(0, 1, 0), (0, 0, 0), (0, 1, 2)])
    refuses(16, 5, [D], [M, M], (), (), [(0, 0, 1), (1, 0, 1), (1, 0, 1)])
    refuses(16, 7, [D, X], [M, M], (), (), [(0, 0, 1), (1, 0, 1), (1, 1, 1), (1, 0, 2)])
    names = MANY_NAMES[:258]
    some = [(0, n, 0) for n in range(258)]
    opens(names, [M, M], (), (), some + [(1, 0, 0)], MANY_RUN)
    refuses(16, 518, names, [M, M], (), (), some + [(0, 0, 0)], MANY_RUN)
    refuses(16, 518, names, [M, M], (), (), some + [(0, 256, 0)], MANY_RUN)
    # the 1,025th record is not reached
    refuses(16, 3, [D], [M], (), [(0, 3, 0, 0)] * 1025)
    refuses(16, 3, [D], [M], (), (), [(0, 0, 3)] * 1025)


def wrong_kind():
    heading("17: an owner that is external or empty")
    for other in (OUT, NIL):
        refuses(17, 2, [D], [other], [(0, 0)])
        refuses(17, 2, [D], [other], (), [(0, 0, 0, 0)])
        refuses(17, 2, [D], [other], (), [(0, 0, 0, NAMESPACE)])
        refuses(17, 2, [D], [other], (), (), [(0, 0, 0)])
        three = [M, other, M]
        refuses(17, 5, [D], three, [(0, 0), (1, 0), (2, 0)])
        refuses(17, 6, [D], three, [(0, 0)], [(0, 0, 0, 0), (1, 0, 0, 0), (2, 0, 0, 0)])
        refuses(17, 6, [D], three, [(0, 0)], (), [(0, 0, 0), (1, 0, 0), (2, 0, 0)])
        opens([D], three, [(0, 0), (2, 0)], [(0, 0, 1, 0), (2, 0, 1, 0)], [(0, 0, 0), (2, 0, 0)])
        refuses(17, 257, [D], [M] * 255 + [other], [(255, 0)])
    refuses(17, 1, [], [OUT], (), [(0, 0, 0, NAMESPACE)])


def in_one_record():
    heading("several faults in one record, with 11")
    # 13: the first name
    for first in ((0, 0), (10, 1), (TOP, 8), (0, TOP), (7, 256)):
        refuses(11, 0, [first, D])
    refuses(11, 0, [(7, 256)], run=[(b"default", 1), (b"a", 256)])
    heading("several faults in one record, with 12")
    # 15: a name
    refuses(12, 4, [D], [M, M], (), [(1, 0, 0, 0), (0, 0, 0, 1)])
    refuses(12, 4, [D], [M, M], (), (), [(1, 0, 0), (0, 1, 0)])
    # 16
    refuses(12, 5, [D], [M, M], (), [(0, 5, 0, 0), (1, 5, 0, 0), (0, 5, 0, 0)])
    refuses(12, 5, [D], [M, M], (), (), [(0, 0, 0), (1, 0, 0), (0, 0, 0)])
    # 15 and 16
    refuses(12, 5, [D], [M, M], (), [(0, 5, 0, 0), (1, 5, 0, 0), (0, 5, 0, 9)])
    for other in (OUT, NIL):
        # 17
        refuses(12, 4, [D], [other, M], [(1, 1), (0, 1)])
        refuses(12, 4, [D], [other, M], (), [(1, 0, 0, 0), (0, 0, 0, 0)])
        refuses(12, 4, [D], [other, M], (), (), [(1, 0, 0), (0, 0, 0)])
        # 15 and 17
        refuses(12, 4, [D], [other, M], (), [(1, 0, 0, 0), (0, 0, 0, 1)])
        refuses(12, 4, [D], [other, M], (), (), [(1, 0, 0), (0, 1, 0)])
    # targets
    refuses(12, 4, [D], [M, M], [(1, 0), (0, 9)])
    refuses(12, 5, [D], [M, M, OUT], [(1, 0), (0, 2)])
    refuses(12, 4, [D], [M, M], (), [(1, 0, 0, 0), (0, 0, 9, 0)])
    heading("several faults in one record, with 15")
    # an owner and a name
    refuses(15, 2, [D], [M], (), [(1, 0, 0, 1)])
    refuses(15, 2, [D], [M], (), (), [(1, 1, 0)])
    refuses(15, 1, [D], (), (), (), [(65535, 65535, 65535)])
    refuses(15, 1, [D], (), (), [(65535, 65535, 65535, 65535)])
    # 16
    refuses(15, 3, [D], [M], (), [(0, 5, 0, 0), (0, 5, 0, 1)])
    refuses(15, 4, [D, X], [M], (), [(0, 5, 0, 1), (0, 5, 0, 65534)])
    for other in (OUT, NIL):
        # 17
        refuses(15, 2, [D], [other], (), [(0, 0, 0, 1)])
        refuses(15, 2, [D], [other], (), (), [(0, 1, 0)])
        refuses(15, 3, [D], [M, other], (), (), [(1, 65535, 0)])
    # targets
    refuses(15, 2, [D], [M], [(1, 1)])
    refuses(15, 3, [D], [M, OUT], [(2, 1)])
    refuses(15, 2, [D], [M], (), [(1, 0, 9, 0)])
    refuses(15, 2, [D], [M], (), [(0, 0, 9, 9)])
    heading("several faults in one record, with a target's 15 in the last pass")
    refuses(16, 3, [D], [M], (), [(0, 0, 9, 0), (0, 0, 9, 0)])
    for other in (OUT, NIL):
        refuses(17, 2, [D], [other], [(0, 9)])
        refuses(17, 2, [D], [other], [(0, 0)])
        refuses(17, 2, [D], [other], (), [(0, 0, 9, 0)])


# Tables that open, and records that are at fault behind them: number of the list, record,
# number of the fault and of the pass in which it is told.
BASE = Tables(RUN, [D, X], [OUT, M, NIL, M], [(1, 1)], [(1, 7, 1, 0)], [(1, 0, 0)])
FAULTY = [
    (0, (10, 1), 11, 1),
    (0, (7, 1), 13, 1),
    (1, (3, 9, 1), 11, 1),
    (1, (0, 9, 0), 11, 1),
    (2, (0, 1), 12, 1),
    (2, (9, 1), 15, 1),
    (2, (2, 1), 17, 1),
    (2, (1, 9), 15, 3),
    (2, (1, 0), 17, 3),
    (3, (0, 8, 1, 0), 12, 1),
    (3, (1, 8, 1, 2), 15, 1),
    (3, (9, 8, 1, 0), 15, 1),
    (3, (1, 7, 1, 0), 16, 1),
    (3, (2, 8, 1, 0), 17, 1),
    (3, (1, 8, 9, 0), 15, 3),
    (4, (0, 1, 0), 12, 1),
    (4, (1, 2, 0), 15, 1),
    (4, (9, 1, 0), 15, 1),
    (4, (1, 0, 0), 16, 1),
    (4, (2, 1, 0), 17, 1),
]


def several(chosen):
    """Records at fault in this order: the first of the earliest pass is told."""
    lists = [list(rows) for rows in BASE.lists()]
    told = []
    for n, row, number, stage in chosen:
        told.append((stage, n, len(lists[n]), number))
        lists[n].append(row)
    _, n, index, number = min(told)
    refuses(number, sum(map(len, lists[:n])) + index, *lists)


def in_several_records():
    heading("one fault behind good records")
    opens(*BASE.lists())
    for one in FAULTY:
        several([one])
    heading("two faults, in both orders")
    for pair in permutations(FAULTY, 2):
        if pair[0][0] <= pair[1][0]:
            several(pair)
    heading("three faults")
    for trio in combinations(FAULTY[5:17:2], 3):
        several(trio)
    heading("faults everywhere")
    several(FAULTY)
    for n in range(1, len(FAULTY)):
        several(FAULTY[n:])
    late = [one for one in FAULTY if one[3] == 3]
    several(late)
    several(late[1:])
    refuses(11, 0, [(TOP, TOP)], [(255, TOP, TOP)], [(65535,) * 2], [(65535,) * 4], [(65535,) * 3])
    refuses(11, 0, [], [(255, TOP, TOP)], [(65535,) * 2], [(65535,) * 4], [(65535,) * 3])
    refuses(15, 0, [], [], [(65535,) * 2], [(65535,) * 4], [(65535,) * 3])
    refuses(15, 0, [], [], [], [(65535,) * 4], [(65535,) * 3])
    refuses(15, 0, [], [], [], [], [(65535,) * 3])


# Tables by chance ------------------------------------------------------------------------

BITS = ((64, 64), (8, 64, 64), (16, 16), (16, 16, 16, 16), (16, 16, 16))
VALUES = (0, 1, 2, 3, 4, 5, 64, 65, 128, 255, 256, 257, 300, 65534, 65535, 65536, TOP - 6, TOP)
SEED = 20
PER_WAY = 18
GOOD = 90
OVER = 3  # tables for each list that goes over its limit


def with_list(t, n, rows):
    """The tables with other rows as list `n`."""
    lists = t.lists()
    return Tables(t.run, *lists[:n], rows, *lists[n + 1 :])


def with_number(t, n, i, k, number):
    """The tables with another number `k` in row `i` of list `n`."""
    rows = list(t.lists()[n])
    rows[i] = rows[i][:k] + (number,) + rows[i][k + 1 :]
    return with_list(t, n, rows)


def damaged_sample():
    heading("the sample with one number raised or lowered by one")
    numbers = [
        (n, i, k, number)
        for n, rows in enumerate(SAMPLE.lists())
        for i, row in enumerate(rows)
        for k, number in enumerate(row)
    ]
    for n, i, k, number in numbers:
        for other in (number + 1, number - 1):
            if other >= 0:
                t = with_number(SAMPLE, n, i, k, other)
                add(t, *opened(t))


def some_span(rng, size, longest):
    length = rng.randrange(1, longest + 1)
    return rng.randrange(size - length + 1), length


def some_owners(rng, owners, most):
    return sorted(rng.choice(owners) for _ in range(rng.randrange(most + 1))) if owners else []


def good_by_chance(rng):
    """Small tables that mostly open."""
    lead = rng.randrange(3)
    data = b"-" * lead + b"default" + bytes(rng.choice(b"abc") for _ in range(rng.randrange(1, 7)))
    names = [(lead, 7)] + [some_span(rng, len(data), 3) for _ in range(rng.randrange(3))]
    kinds = [rng.choice((ES, ES, ES, EXTERNAL, EMPTY)) for _ in range(rng.randrange(1, 5))]
    owners = [n for n, kind in enumerate(kinds) if kind == ES]
    inner = [n for n, kind in enumerate(kinds) if kind != EXTERNAL]
    numbers = list(range(len(names)))
    return Tables(
        [(data, 1)] + ([(b"z", 300)] if rng.randrange(4) == 0 else []),
        names,
        [(kind, *some_span(rng, len(data), 4)) for kind in kinds],
        [(owner, rng.choice(inner)) for owner in some_owners(rng, owners, 3)],
        [
            (owner, rng.randrange(6), rng.randrange(len(kinds)), rng.choice(numbers + [NAMESPACE]))
            for owner in some_owners(rng, owners, 3)
        ],
        [
            (owner, rng.choice(numbers), rng.randrange(6))
            for owner in some_owners(rng, owners, 3)
        ],
    )


def other_number(rng, t, n):
    """The tables with one number of list `n` changed."""
    rows = t.lists()[n]
    i, k = rng.randrange(len(rows)), rng.randrange(len(rows[0]))
    old = rows[i][k]
    near = [old + 1, old - 1, old ^ 1, len(t.modules), len(t.modules) - 1, len(t.names)]
    limit = 2 ** BITS[n][k]
    number = rng.choice([v for v in list(VALUES) + 2 * near if 0 <= v < limit])
    return with_number(t, n, i, k, number)


def changed(rng, t):
    """The tables with one number changed, one record left out, doubled or put last, a list
    left out, or the end of a list from other tables."""
    n, how = rng.randrange(5), rng.randrange(36)
    rows = list(t.lists()[n])
    if how >= 16:
        return other_number(rng, t, n) if rows else t
    at = rng.randrange(len(rows) + 1)
    if how >= 12:
        rows[at:] = good_by_chance(rng).lists()[n]
    elif how >= 8:
        rows[at:at] = rows[at : at + 1]
    elif how >= 4:
        del rows[at : at + 1]
    elif how >= 1:
        rows += rows[at : at + 1]
        del rows[at : at + 1]
    else:
        rows = []
    return with_list(t, n, rows)


def small_tables():
    """Tables by chance, about as many for each way to be refused."""
    heading("small tables by chance, and damaged ones")
    rng, kept = random.Random(SEED), Counter()
    for _ in range(40000):
        t = good_by_chance(rng)
        for _ in range(rng.choice((0, 1, 1, 1, 2, 2, 3))):
            t = changed(rng, t)
        expected, way = opened(t)
        if kept[way] < (GOOD if way == "opens" else PER_WAY) and tables_text(t) not in CASES.seen:
            kept[way] += 1
            add(t, expected, way)
    return kept


def full_by_chance(rng, n):
    """Tables that open, with as many records in list `n` as there may be."""
    owners = range(2, 40)
    names = [D] + rng.sample(MANY_NAMES[1:], 1023 if n == 0 else 39)
    modules, stars, imports, exports = [OUT, NIL] + [M] * 38, [], [], []
    keys = sorted(rng.sample([(owner, k) for owner in owners for k in range(40)], RECORDS))
    if n == 1:
        modules = rng.choices([M, OUT, NIL], k=MODULES)
    elif n == 2:
        stars = [(owner, rng.randrange(1, 40)) for owner, _ in keys]
    elif n == 3:
        imports = [(owner, k, rng.randrange(9), rng.randrange(9)) for owner, k in keys]
    elif n == 4:
        exports = [(owner, k, rng.randrange(9)) for owner, k in keys]
    return Tables(MANY_RUN, names, modules, stars, imports, exports)


def over_by_chance():
    """Tables with one list that is one or two records too long."""
    heading("one list over its limit, by chance")
    rng, kept = random.Random(SEED), Counter()
    fresh = (ONE_MORE, M, (39, 1), (39, 100, 1, 0), (39, 0, 1))
    for n in range(5):
        for _ in range(OVER):
            full = full_by_chance(rng, n)
            rows = full.lists()[n]
            more = [fresh[n]] + rng.choices(rows, k=rng.randrange(2))
            t = with_list(full, n, rows + more)
            expected, way = opened(t)
            kept[way] += 1
            add(t, expected, way)
    return kept


def main():
    by_hand = (
        good_tables,
        shared_spans,
        bad_spans,
        bad_lengths,
        bad_kinds,
        falling_owners,
        bad_names,
        many_names,
        many_modules,
        many_stars,
        many_imports,
        many_exports,
        all_full,
        no_record,
        targets,
        again,
        wrong_kind,
        in_one_record,
        in_several_records,
    )
    for part in by_hand:
        part()
    ways_by_hand = Counter(CASES.ways)
    damaged_sample()
    by_chance = small_tables() + over_by_chance()
    assert set(ways_by_hand) == set(CASES.ways) == set(by_chance)
    assert min(by_chance.values()) >= OVER
    CASES.show()
    for way, count in sorted(by_chance.items()):
        hand = ways_by_hand[way]
        print("  %-20s %4d by hand, %3d by chance" % (way, hand, count), file=sys.stderr)


if __name__ == "__main__":
    main()
