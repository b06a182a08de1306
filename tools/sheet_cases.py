#!/usr/bin/env python3
"""Prints the list of sheets that the program sheet_cases opens.

    python3 tools/sheet_cases.py > crates/sheet_cases/stdin

Each line is `CHUNKS = EXPECTED`. A chunk is bytes in hex, or bytes in hex, `*` and how
often they stand in a row. Lines that begin with `#` are headings.

A sheet is a run of fields: a tag (one byte), the payload's length (two) and the payload.
All numbers are big-endian. The tags:

    1  a name: its 1 to 255 bytes
    2  a module: its kind (0 ES, 1 external, 2 empty) and an id of 1 to 64 bytes
    3  a star record of the latest module: target module
    4  an import of the latest module: symbol, target module, name (65535: the namespace)
    5  an export of the latest module: name, symbol

All names stand before all modules; names and modules are numbered from 0. A sheet opens,
or is refused for its first fault, at the first byte of the field:

    10  the sheet is longer than 60,000 bytes (at 60000), or a field is cut short
    11  a tag, length or kind that is none of the above
    12  a name behind a module, or a record (3, 4, 5) before every module
    13  no name at all (at the sheet's length), a first name other than `default`, or a name
        that stands before
    14  more than 1,024 names, 256 modules, 1,024 star records, imports or exports
    15  a name or a module with no record
    16  the latest module already exports the name, or already imports the symbol
    17  the latest module is no ES module, or a star record aims at an external one

The total length comes first, then field by field, and for one field the smallest number.
Behind the last field comes the missing name, and then, again in order of the fields, the
targets of star records and imports: 15, and for a star record 17.

`opened` is a model of these rules, written from them; its author had seen two functions of
the program, `open` and `check_targets`, and no other part of it. The answers
of the cases written by hand are written by hand too, and the model is held to them.
"""

import random
import sys
from collections import Counter
from itertools import permutations

from case_list import flat, read_back, written

TOTAL = 60000
NAMES, MODULES, RECORDS = 1024, 256, 1024
NAMESPACE = 65535
ES, EXTERNAL, EMPTY = 0, 1, 2
NAME, MODULE, STAR, IMPORT, EXPORT = 1, 2, 3, 4, 5
LIMITS = {NAME: NAMES, MODULE: MODULES, STAR: RECORDS, IMPORT: RECORDS, EXPORT: RECORDS}
WORDS = {NAME: "name", MODULE: "module", STAR: "star", IMPORT: "import", EXPORT: "export"}

# The model -----------------------------------------------------------------------------


class Refused(Exception):
    def __init__(self, number, place, way):
        super().__init__(number, place, way)
        self.number, self.place, self.way = number, place, way


def u16(data, at):
    return data[at] * 256 + data[at + 1]


def misshapen(tag, payload):
    """What is wrong with a field by itself, or None."""
    size = len(payload)
    if tag == NAME:
        return None if 1 <= size <= 255 else "name length"
    if tag == MODULE:
        if size >= 1 and payload[0] > 2:
            return "kind"
        return None if 1 <= size - 1 <= 64 else "id length"
    if tag in (STAR, IMPORT, EXPORT):
        right = {STAR: 2, IMPORT: 6, EXPORT: 4}[tag]
        return None if size == right else WORDS[tag] + " length"
    return "tag"


class Sheet:
    """What the fields up to some place say."""

    def __init__(self):
        self.count = Counter()
        self.names = []
        self.kinds = []
        self.exported = set()  # names that the latest module exports
        self.imported = set()  # symbols that the latest module imports
        self.targets = []  # (place, tag, target) of each star record and import

    def faults(self, tag, payload):
        """Every fault of a well-shaped field, as (number, way)."""
        if tag == NAME and self.kinds:
            yield 12, "name behind a module"
        if tag > MODULE and not self.kinds:
            yield 12, WORDS[tag] + " before every module"
        if tag == NAME and not self.names and payload != b"default":
            yield 13, "first name"
        if tag == NAME and payload in self.names:
            yield 13, "name again"
        if self.count[tag] >= LIMITS[tag]:
            yield 14, "too many: " + WORDS[tag]
        if tag == EXPORT and u16(payload, 0) >= len(self.names):
            yield 15, "name of an export"
        if tag == IMPORT and u16(payload, 4) != NAMESPACE:
            if u16(payload, 4) >= len(self.names):
                yield 15, "name of an import"
        if tag == EXPORT and u16(payload, 0) in self.exported:
            yield 16, "export again"
        if tag == IMPORT and u16(payload, 0) in self.imported:
            yield 16, "import again"
        if tag > MODULE and self.kinds and self.kinds[-1] != ES:
            owner = "external" if self.kinds[-1] == EXTERNAL else "empty"
            yield 17, WORDS[tag] + " of an " + owner + " module"

    def take(self, place, tag, payload):
        self.count[tag] += 1
        if tag == NAME:
            self.names.append(payload)
        elif tag == MODULE:
            self.kinds.append(payload[0])
            self.exported, self.imported = set(), set()
        elif tag == STAR:
            self.targets.append((place, tag, u16(payload, 0)))
        elif tag == IMPORT:
            self.imported.add(u16(payload, 0))
            self.targets.append((place, tag, u16(payload, 2)))
        else:
            self.exported.add(u16(payload, 0))


def check(data):
    """Raises the first fault of a sheet."""
    if len(data) > TOTAL:
        raise Refused(10, TOTAL, "sheet too long")
    sheet, place = Sheet(), 0
    while place < len(data):
        rest = data[place:]
        if len(rest) < 3:
            raise Refused(10, place, "header cut")
        size = u16(rest, 1)
        if len(rest) < 3 + size:
            raise Refused(10, place, "payload cut")
        tag, payload = rest[0], rest[3 : 3 + size]
        way = misshapen(tag, payload)
        if way:
            raise Refused(11, place, way)
        faults = sorted(sheet.faults(tag, payload))
        if faults:
            raise Refused(faults[0][0], place, faults[0][1])
        sheet.take(place, tag, payload)
        place += 3 + size
    if not sheet.names:
        raise Refused(13, len(data), "no name")
    for place, tag, target in sheet.targets:
        if target >= len(sheet.kinds):
            raise Refused(15, place, "target of " + WORDS[tag])
        if tag == STAR and sheet.kinds[target] == EXTERNAL:
            raise Refused(17, place, "star at an external module")


def opened(data):
    """What opening a sheet gives, and in which way."""
    try:
        check(data)
    except Refused as r:
        return "refused %d at %d in sheet" % (r.number, r.place), r.way
    return "opens", "opens"


# Sheets as chunks, pairs of bytes and how often they stand in a row ----------------------


def raw(digits, count=1):
    return [(bytes.fromhex(digits), count)]


def field(tag, payload):
    return [(bytes([tag]) + len(payload).to_bytes(2, "big") + payload, 1)]


def two(n):
    return n.to_bytes(2, "big")


def name(text):
    return field(NAME, text)


def module(kind, ident=b"m"):
    return field(MODULE, bytes([kind]) + ident)


def star(target):
    return field(STAR, two(target))


def imports(symbol, target, wanted):
    return field(IMPORT, two(symbol) + two(target) + two(wanted))


def exports(wanted, symbol):
    return field(EXPORT, two(wanted) + two(symbol))


def times(chunks, count):
    return [(flat(chunks), count)]


def filled_name(size, head=b"", tail=b""):
    """A name of `size` bytes: `head`, then as many `a` as it takes, then `tail`."""
    start = bytes([NAME]) + two(size) + head
    return [(start, 1), (b"a", size - len(head) - len(tail)), (tail, 1)]


def filled_module(kind, size):
    """A module whose id has `size` bytes."""
    return [(bytes([MODULE]) + two(1 + size) + bytes([kind]), 1), (b"m", size)]


# The list --------------------------------------------------------------------------------

LINES = []
WAYS = Counter()
SEEN = set()


def heading(text):
    LINES.append("# " + text)


def add(chunks, expected, way):
    """A line of the list, unless the sheet has one already."""
    data = flat(chunks)
    if data in SEEN:
        return
    text = written(chunks)
    assert read_back(text) == data
    SEEN.add(data)
    WAYS[way] += 1
    LINES.append((text + " = " + expected).lstrip())


def case(chunks, expected):
    """A case whose answer is given by hand."""
    got, way = opened(flat(chunks))
    assert got == expected, "%s: %s, and the model says %s" % (written(chunks)[:400], expected, got)
    add(chunks, expected, way)


def opens(*parts):
    case(sum(parts, []), "opens")


def refuses(number, place, *parts):
    case(sum(parts, []), "refused %d at %d in sheet" % (number, place))


# Lengths: DEFAULT 10 bytes, X and Y 4, a module with an id of one byte 5, a star record 5,
# an import 9, an export 7.
DEFAULT = name(b"default")
X, Y = name(b"x"), name(b"y")
M, OUT, NIL = module(ES), module(EXTERNAL), module(EMPTY)

SAMPLE = [
    bytes.fromhex(digits)
    for digits in (
        "01000764656661756c74 0100057465657468 02000600636c6f636b 040006000000010001 "
        "020005006469616c 0300020002 0300020003 02000700737572766579 05000400010000 "
        "020006006f72646572 05000400010000"
    ).split()
]
WHOLE = b"".join(SAMPLE)


def good_sheets():
    heading("sheets that open")
    opens([(part, 1) for part in SAMPLE])
    opens(DEFAULT)
    opens(DEFAULT, X, Y)
    opens(DEFAULT, M)
    opens(DEFAULT, M, M, M)
    opens(DEFAULT, OUT)
    opens(DEFAULT, NIL)
    opens(DEFAULT, OUT, NIL, M, star(1))
    # names and ids are bytes of any kind
    opens(DEFAULT, name(b"\0"), name(b"\0\0"), name(b"\xff\xfe"), name(b"\n"), name(b" "))
    opens(DEFAULT, module(ES, b"\0"), module(EXTERNAL, b"\0"), module(EMPTY, b"\xff\x80"))
    opens(DEFAULT, name(b"Default"), name(b"defaul"), name(b"defaults"), name(b"default\0"))
    opens(DEFAULT, name(b"a"), name(b"aa"), name(b"ab"), name(b"ba"), name(b"aab"))
    # one name exported by two modules, one symbol imported by two
    opens(DEFAULT, M, exports(0, 1), M, exports(0, 1))
    opens(DEFAULT, M, imports(1, 0, 0), M, imports(1, 0, 0))
    opens(DEFAULT, M, exports(0, 1), OUT, M, exports(0, 1))
    # an import and an export that share a symbol, two exports that do
    opens(DEFAULT, M, exports(0, 7), imports(7, 0, 0))
    opens(DEFAULT, M, imports(7, 0, 0), exports(0, 7))
    opens(DEFAULT, X, M, exports(0, 7), exports(1, 7))
    opens(DEFAULT, X, M, imports(0, 0, 0), exports(0, 1), imports(1, 0, 0), exports(1, 0))
    # one target and name under two symbols
    opens(DEFAULT, M, imports(1, 0, 0), imports(2, 0, 0))
    opens(DEFAULT, M, imports(0, 0, NAMESPACE), imports(65535, 0, NAMESPACE))
    opens(DEFAULT, M, exports(0, 65535))
    # star records: at itself, again, at an empty module, ahead and back
    opens(DEFAULT, M, star(0))
    opens(DEFAULT, M, star(0), star(0), star(0))
    opens(DEFAULT, M, star(1), NIL)
    opens(DEFAULT, NIL, M, star(0))
    opens(DEFAULT, M, star(1), M, star(0))
    # imports: from itself, from an external and an empty module
    opens(DEFAULT, M, imports(0, 0, 0))
    opens(DEFAULT, M, imports(0, 1, 0), OUT)
    opens(DEFAULT, OUT, M, imports(0, 0, NAMESPACE))
    opens(DEFAULT, NIL, M, imports(0, 0, 0))
    opens(DEFAULT, OUT, OUT, NIL, NIL, M, star(2), star(3), imports(0, 0, 0), imports(1, 1, 0))
    # the high byte counts: symbols 1 and 256 differ
    opens(DEFAULT, M, imports(1, 0, 0), imports(256, 0, 0), imports(257, 0, 0))


def bad_lengths():
    heading("10: a field cut short")
    for tag in (0, 1, 2, 3, 4, 5, 6, 255):
        refuses(10, 0, raw("%02x" % tag))
        refuses(10, 0, raw("%02x00" % tag))
        refuses(10, 0, raw("%02x0001" % tag))
        refuses(10, 10, DEFAULT, raw("%02x" % tag))
        refuses(10, 10, DEFAULT, raw("%02x00" % tag))
        refuses(10, 10, DEFAULT, raw("%02x0002 00" % tag))
        refuses(10, 15, DEFAULT, M, raw("%02xffff" % tag), raw("00", 300))
    refuses(10, 0, raw("010007 64656661756c"))
    refuses(10, 10, DEFAULT, raw("020002 00"))
    refuses(10, 15, DEFAULT, M, raw("030002 00"))
    refuses(10, 15, DEFAULT, M, raw("040006 0000000000"))
    refuses(10, 15, DEFAULT, M, raw("050004 000000"))
    refuses(10, 0, raw("0100ff"), raw("61", 254))
    refuses(10, 0, raw("010100"), raw("61", 255))


def bad_shapes():
    heading("11: a tag, length or kind that there is none of")
    for tag in (0, 6, 7, 128, 254, 255):
        refuses(11, 0, field(tag, b""))
        refuses(11, 10, DEFAULT, field(tag, b"ab"))
        refuses(11, 15, DEFAULT, M, field(tag, b"\0\0"))
    heading("11: names")
    refuses(11, 0, name(b""))
    refuses(11, 10, DEFAULT, name(b""))
    opens(DEFAULT, name(b"z"))
    opens(DEFAULT, filled_name(255))
    opens(DEFAULT, filled_name(255), filled_name(254))
    refuses(11, 10, DEFAULT, filled_name(256))
    refuses(11, 0, filled_name(256))
    refuses(11, 10, DEFAULT, filled_name(257))
    refuses(11, 10, DEFAULT, filled_name(511))
    refuses(11, 10, DEFAULT, filled_name(512))
    refuses(11, 268, DEFAULT, filled_name(255), filled_name(256))
    heading("11: modules")
    opens(DEFAULT, module(ES, b"i"))
    for kind in (ES, EXTERNAL, EMPTY):
        opens(DEFAULT, filled_module(kind, 64))
        refuses(11, 10, DEFAULT, filled_module(kind, 65))
        refuses(11, 10, DEFAULT, filled_module(kind, 0))
    refuses(11, 10, DEFAULT, field(MODULE, b""))
    refuses(11, 10, DEFAULT, filled_module(ES, 255))
    refuses(11, 10, DEFAULT, filled_module(ES, 256))
    refuses(11, 10, DEFAULT, filled_module(ES, 257))
    for kind in (3, 4, 127, 128, 255):
        refuses(11, 10, DEFAULT, module(kind))
        refuses(11, 15, DEFAULT, M, module(kind))
        refuses(11, 10, DEFAULT, filled_module(kind, 65))
        refuses(11, 10, DEFAULT, filled_module(kind, 0))
    heading("11: records")
    for size in (0, 1, 3, 4, 6, 258):
        refuses(11, 15, DEFAULT, M, field(STAR, b"\0" * size))
    for size in (0, 1, 2, 4, 5, 7, 262):
        refuses(11, 15, DEFAULT, M, field(IMPORT, b"\0" * size))
    for size in (0, 1, 2, 3, 5, 6, 260):
        refuses(11, 15, DEFAULT, M, field(EXPORT, b"\0" * size))


def bad_order():
    heading("12: a name behind a module, a record before every module")
    refuses(12, 15, DEFAULT, M, X)
    refuses(12, 15, DEFAULT, OUT, X)
    refuses(12, 15, DEFAULT, NIL, X)
    refuses(12, 20, DEFAULT, M, OUT, X)
    refuses(12, 22, DEFAULT, M, exports(0, 0), X)
    refuses(12, 20, DEFAULT, M, star(0), X)
    refuses(12, 5, M, DEFAULT)
    refuses(12, 5, M, X)
    refuses(12, 10, DEFAULT, star(0))
    refuses(12, 10, DEFAULT, imports(0, 0, 0))
    refuses(12, 10, DEFAULT, imports(0, 0, NAMESPACE))
    refuses(12, 10, DEFAULT, exports(0, 0))
    refuses(12, 10, DEFAULT, star(0), M)
    refuses(12, 10, DEFAULT, imports(0, 0, 0), M)
    refuses(12, 10, DEFAULT, exports(0, 0), M)
    refuses(12, 0, star(0))
    refuses(12, 0, imports(0, 0, 0))
    refuses(12, 0, exports(0, 0))


def bad_names():
    heading("13: no name, a first name other than `default`, a name again")
    refuses(13, 0)
    refuses(13, 5, M)
    refuses(13, 5, OUT)
    refuses(13, 10, M, star(0))
    refuses(13, 14, M, imports(0, 0, NAMESPACE))
    refuses(13, 15, M, OUT, NIL)
    for first in (b"x", b"Default", b"defaul", b"defaults", b"efault", b"tluafed", b"defaulu"):
        refuses(13, 0, name(first))
        refuses(13, 0, name(first), DEFAULT)
    refuses(13, 0, filled_name(255))
    refuses(13, 0, X, M)
    refuses(13, 10, DEFAULT, DEFAULT)
    refuses(13, 14, DEFAULT, X, DEFAULT)
    refuses(13, 14, DEFAULT, X, X)
    refuses(13, 18, DEFAULT, X, Y, X)
    refuses(13, 18, DEFAULT, X, Y, Y, X)
    refuses(13, 14, DEFAULT, X, X, M)
    refuses(13, 268, DEFAULT, filled_name(255), filled_name(255))
    refuses(13, 526, DEFAULT, filled_name(255), filled_name(255, tail=b"b"), filled_name(255))
    opens(DEFAULT, filled_name(255), filled_name(255, tail=b"b"), filled_name(255, head=b"b"))


def joined(parts):
    """Many parts as one chunk."""
    return [(b"".join(flat(part) for part in parts), 1)]


def number_names(count):
    """`default` and the names 1, 2 .. as two bytes each: `count` names in all."""
    return DEFAULT + joined(name(two(n)) for n in range(1, count))


def over_limits():
    names = number_names(NAMES)  # 10 + 5 * 1023 = 5125 bytes
    heading("14: names")
    opens(names, M, exports(1023, 0), imports(0, 0, 1023))
    refuses(14, 5125, names, name(b"one more"), M, exports(1024, 0))
    # 12 and 13 come before 14
    refuses(12, 5130, names, M, name(b"one more"))
    refuses(13, 5125, names, name(two(1023)))
    heading("14: modules")
    most = times(M, MODULES)
    opens(DEFAULT, most)
    opens(DEFAULT, times(OUT, MODULES))
    opens(DEFAULT, times(NIL, MODULES))
    for more in (M, OUT, NIL):
        refuses(14, 1290, DEFAULT, most, more)
        refuses(14, 1290, DEFAULT, times(OUT, 100), times(NIL, 156), more)
    refuses(11, 1290, DEFAULT, most, module(3))
    refuses(13, 1280, most)
    refuses(14, 1280, most, M)
    heading("14: star records")
    opens(DEFAULT, M, times(star(0), 1024))
    refuses(14, 5135, DEFAULT, M, times(star(0), 1025))
    refuses(14, 5140, DEFAULT, M, times(star(0), 1024), M, star(0))
    opens(DEFAULT, times(M + times(star(9), 4), 256))
    refuses(14, 6410, DEFAULT, times(M + times(star(9), 4), 256), star(0))
    refuses(14, 6410, DEFAULT, times(M + times(star(9), 4), 256), star(0), star(0))
    # the limits are apart: an import and an export behind 1,024 star records
    opens(DEFAULT, M, times(star(0), 1024), imports(0, 0, 0), exports(0, 0))
    # 14 comes before the last pass, and before 17
    refuses(14, 5135, DEFAULT, M, times(star(1), 1025))
    refuses(14, 5140, DEFAULT, M, times(star(0), 1024), OUT, star(0))
    refuses(15, 15, DEFAULT, M, times(star(1), 1024))
    heading("14: imports")
    four = joined(imports(n, 0, 0) for n in range(4))
    opens(DEFAULT, times(M + four, 256))
    refuses(14, 10506, DEFAULT, times(M + four, 256), imports(4, 0, 0))
    # 14 comes before 15, 16 and 17
    refuses(14, 10506, DEFAULT, times(M + four, 256), imports(4, 0, 1))
    refuses(14, 10506, DEFAULT, times(M + four, 256), imports(0, 0, 0))
    refuses(14, 10506, DEFAULT, times(M + four, 256), imports(0, 999, 1))
    eight = four + joined(imports(n, 0, 0) for n in range(4, 8))
    opens(DEFAULT, times(M + eight, 128), OUT)
    refuses(14, 9871, DEFAULT, times(M + eight, 128), OUT, imports(0, 0, 0))
    refuses(14, 9871, DEFAULT, times(M + eight, 128), NIL, imports(0, 0, 9))
    opens(DEFAULT, times(M + eight, 128), M, star(0), exports(0, 0))
    heading("14: exports of many modules")
    few = number_names(8)  # 45 bytes
    some = joined(exports(n, 0) for n in range(8))
    opens(few, times(M + some, 128))
    refuses(14, 7858, few, times(M + some, 128), M, exports(0, 0))
    # 14 comes before 15, 16 and 17
    refuses(14, 7858, few, times(M + some, 128), M, exports(8, 0))
    refuses(14, 7853, few, times(M + some, 128), exports(0, 0))
    refuses(14, 7858, few, times(M + some, 128), OUT, exports(0, 0))
    opens(few, times(M + some, 128), M, star(0), imports(0, 0, 0))


def no_record():
    heading("15: a name with no record")
    opens(DEFAULT, X, Y, M, exports(2, 0))
    refuses(15, 23, DEFAULT, X, Y, M, exports(3, 0))
    refuses(15, 15, DEFAULT, M, exports(1, 0))
    refuses(15, 15, DEFAULT, M, exports(256, 0))
    refuses(15, 15, DEFAULT, M, exports(65534, 0))
    refuses(15, 15, DEFAULT, M, exports(65535, 0))
    refuses(15, 5, M, exports(0, 0))
    refuses(15, 5, M, exports(65535, 0))
    opens(DEFAULT, X, Y, M, imports(0, 0, 2))
    refuses(15, 23, DEFAULT, X, Y, M, imports(0, 0, 3))
    refuses(15, 15, DEFAULT, M, imports(0, 0, 1))
    refuses(15, 15, DEFAULT, M, imports(0, 0, 256))
    refuses(15, 15, DEFAULT, M, imports(0, 0, 65534))
    opens(DEFAULT, M, imports(0, 0, 65535))
    refuses(15, 5, M, imports(0, 0, 0))
    # both bytes count
    many = number_names(257)  # 1290 bytes
    opens(many, M, exports(256, 0), exports(1, 0), imports(0, 0, 256))
    refuses(15, 1295, many, M, exports(257, 0))
    refuses(15, 1295, many, M, imports(0, 0, 257))
    refuses(16, 1309, many, M, exports(256, 0), exports(0, 0), exports(256, 1))
    heading("15: a module with no record")
    opens(DEFAULT, M, M, star(1), star(0))
    refuses(15, 20, DEFAULT, M, M, star(2))
    refuses(15, 15, DEFAULT, M, star(2), M)
    refuses(15, 15, DEFAULT, M, star(1))
    refuses(15, 15, DEFAULT, M, star(256))
    refuses(15, 15, DEFAULT, M, star(65535))
    opens(DEFAULT, M, M, imports(0, 1, 0))
    refuses(15, 20, DEFAULT, M, M, imports(0, 2, 0))
    refuses(15, 15, DEFAULT, M, imports(0, 2, 0), M)
    refuses(15, 15, DEFAULT, M, imports(0, 65535, 0))
    refuses(15, 15, DEFAULT, M, imports(0, 256, NAMESPACE))
    most = times(M, MODULES)  # 1280 bytes
    opens(DEFAULT, most, star(255), imports(0, 255, 0))
    refuses(15, 1290, DEFAULT, most, star(256))
    refuses(15, 1290, DEFAULT, most, imports(0, 256, 0))
    refuses(15, 1295, DEFAULT, most, star(255), imports(0, 256, 0))
    opens(DEFAULT, M, star(255), times(M, 255))
    refuses(15, 15, DEFAULT, M, star(255), times(M, 254))


def again():
    heading("16: an export or an import again")
    refuses(16, 22, DEFAULT, M, exports(0, 0), exports(0, 0))
    refuses(16, 22, DEFAULT, M, exports(0, 0), exports(0, 1))
    refuses(16, 33, DEFAULT, X, M, exports(1, 0), exports(0, 1), exports(1, 2))
    refuses(16, 36, DEFAULT, M, exports(0, 1), star(0), imports(0, 0, 0), exports(0, 1))
    refuses(16, 24, DEFAULT, M, imports(0, 0, 0), imports(0, 0, 0))
    refuses(16, 24, DEFAULT, M, imports(5, 0, 0), imports(5, 0, NAMESPACE))
    refuses(16, 33, DEFAULT, M, imports(5, 0, 0), imports(6, 0, 0), imports(5, 0, 0))
    refuses(16, 24, DEFAULT, M, imports(256, 0, 0), imports(256, 0, 0))
    refuses(16, 24, DEFAULT, M, imports(65535, 0, 0), imports(65535, 0, 0))
    refuses(16, 34, DEFAULT, M, exports(0, 1), M, exports(0, 1), exports(0, 1))
    refuses(16, 38, DEFAULT, M, imports(1, 0, 0), M, imports(1, 0, 0), imports(1, 0, 0))
    hundreds = joined(imports(n, 0, 0) for n in range(258))  # 2322 bytes
    refuses(16, 2337, DEFAULT, M, hundreds, imports(0, 0, 0))
    # the 1,025th record is not reached
    refuses(16, 24, DEFAULT, M, times(imports(3, 0, 0), 1025))
    refuses(16, 22, DEFAULT, M, times(exports(0, 3), 1025))


def wrong_kind():
    heading("17: records of external and empty modules")
    for other in (OUT, NIL):
        for owned in (star(0), imports(0, 0, 0), imports(0, 0, NAMESPACE), exports(0, 0)):
            refuses(17, 15, DEFAULT, other, owned)
            refuses(17, 20, DEFAULT, M, other, owned)
            refuses(17, 20, DEFAULT, M, other, owned, M)
        opens(DEFAULT, other, M, exports(0, 0))
        opens(DEFAULT, M, exports(0, 0), other)
    refuses(17, 5, OUT, star(0))
    heading("17: a star record that aims at an external module")
    refuses(17, 20, DEFAULT, OUT, M, star(0))
    refuses(17, 15, DEFAULT, M, star(1), OUT)
    refuses(17, 20, DEFAULT, M, star(0), star(1), OUT)
    refuses(17, 25, DEFAULT, NIL, M, star(0), star(2), OUT)
    refuses(17, 29, DEFAULT, OUT, M, imports(0, 0, 0), star(0))
    refuses(17, 5130, DEFAULT, M, times(star(0), 1023), star(1), OUT)


def in_one_field():
    heading("several faults in one field")
    # 10 before all
    refuses(10, 15, DEFAULT, M, raw("090001"))
    refuses(10, 10, DEFAULT, raw("0300ff"), raw("00", 254))
    refuses(10, 15, DEFAULT, M, raw("010100"), raw("61", 255))
    refuses(10, 15, DEFAULT, OUT, raw("030003 0000"))
    # 11 before 12, 13, 14, 15 and 17
    refuses(11, 10, DEFAULT, field(STAR, b"\0"))
    refuses(11, 10, DEFAULT, field(IMPORT, b"\0" * 5))
    refuses(11, 10, DEFAULT, field(EXPORT, b"\0" * 3))
    refuses(11, 15, DEFAULT, M, name(b""))
    refuses(11, 15, DEFAULT, M, filled_name(256))
    refuses(11, 15, DEFAULT, OUT, field(STAR, b"\0" * 3))
    refuses(11, 15, DEFAULT, M, field(EXPORT, b"\xff" * 5))
    # 12 before 13, 15 and the last pass
    refuses(12, 15, DEFAULT, M, DEFAULT)
    refuses(12, 19, DEFAULT, X, M, X)
    refuses(12, 5, M, X)
    refuses(12, 10, DEFAULT, exports(9, 0))
    refuses(12, 10, DEFAULT, imports(0, 0, 9))
    refuses(12, 10, DEFAULT, star(9))
    refuses(12, 0, imports(9, 9, 9))
    # 15 before 16 and 17
    refuses(15, 24, DEFAULT, M, imports(0, 0, 0), imports(0, 0, 1))
    refuses(15, 15, DEFAULT, OUT, exports(1, 0))
    refuses(15, 15, DEFAULT, OUT, imports(0, 0, 1))
    refuses(15, 15, DEFAULT, NIL, exports(65535, 0))
    refuses(15, 15, DEFAULT, NIL, imports(0, 9, 1))
    refuses(15, 5, OUT, exports(0, 0))
    # what is told field by field before the last pass
    refuses(16, 24, DEFAULT, M, imports(0, 9, 0), imports(0, 9, 0))
    refuses(17, 15, DEFAULT, OUT, star(9))
    refuses(17, 15, DEFAULT, OUT, imports(0, 9, 0))
    refuses(15, 15, DEFAULT, M, imports(0, 9, 9))
    # the missing name before the last pass
    refuses(13, 10, M, star(9))
    refuses(13, 14, M, imports(0, 9, NAMESPACE))
    refuses(13, 15, M, star(1), OUT)


# Fields that are at fault behind a sheet with the names `default` and `x`, an external
# module 0 and an ES module 1 that exports `default` and imports symbol 7. The last number
# is 1 where the fault is told in the last pass.
BASE = DEFAULT + X + OUT + M + exports(0, 0) + imports(7, 0, 0)
FAULTY = [
    (field(6, b""), 11, 0),
    (field(STAR, b"\0"), 11, 0),
    (Y, 12, 0),
    (exports(2, 0), 15, 0),
    (imports(8, 0, 2), 15, 0),
    (exports(0, 5), 16, 0),
    (imports(7, 1, 0), 16, 0),
    (star(0), 17, 1),
    (star(2), 15, 1),
    (imports(9, 2, 0), 15, 1),
]


def several(faulty):
    """Fields at fault in a row: the first that is told field by field, else the first."""
    place = len(flat(BASE))
    told = []
    for chunks, number, late in faulty:
        told.append((late, place, number))
        place += len(flat(chunks))
    _, place, number = min(told)
    refuses(number, place, BASE, *(chunks for chunks, _, _ in faulty))


def several_fields():
    heading("two faults, in both orders")
    for pair in permutations(FAULTY, 2):
        several(pair)
    heading("three faults, in every order")
    for trio in permutations((FAULTY[n] for n in (0, 2, 5, 7, 8)), 3):
        several(trio)
    heading("a fault, and a field cut short behind it")
    for one in FAULTY:
        several([one, (raw("01"), 10, 0)])
    heading("faults apart from each other")
    refuses(13, 0, X, field(9, b""))
    refuses(11, 0, field(9, b""), X)
    refuses(13, 10, DEFAULT, DEFAULT, raw("00"))
    refuses(12, 10, DEFAULT, star(0), DEFAULT)
    refuses(13, 10, DEFAULT, DEFAULT, star(0))
    refuses(17, 20, DEFAULT, M, OUT, star(0), exports(1, 0))
    refuses(15, 15, DEFAULT, M, exports(1, 0), OUT, star(0))
    refuses(17, 20, DEFAULT, M, OUT, exports(0, 0), X)
    refuses(12, 15, DEFAULT, M, X, OUT, exports(0, 0))
    refuses(15, 5, M, exports(0, 0), OUT, star(0))


# A module with its records: 152 bytes, and 256 of them are at every limit but that of names.
BULK = (
    filled_module(ES, 64)
    + times(star(3), 4)
    + joined([imports(1, 2, 0), imports(2, 3, 1), imports(3, 4, NAMESPACE), imports(4, 0, 3)])
    + joined([exports(0, 1), exports(1, 2), exports(2, 3), exports(3, 4)])
)


def bulk_names(last):
    """`default`, 81 names of 255 bytes and one of `last` bytes: 20,911 bytes and `last`."""
    longest = [filled_name(255, tail=bytes([n])) for n in range(100, 181)]
    return DEFAULT + sum(longest, []) + filled_name(last)


def like_names(count, size, longer):
    """`default` and names that differ in the last two bytes: the first `longer` of them
    have one byte more than `size`."""
    sizes = [size + 1] * longer + [size] * (count - 1 - longer)
    return DEFAULT + sum((filled_name(s, tail=two(n)) for n, s in enumerate(sizes)), [])


def whole_length():
    heading("60,000 bytes and one more")
    names, bulk = bulk_names(177), times(BULK, MODULES)
    assert len(flat(names)) == 21088 and len(flat(bulk)) == 38912
    opens(names, bulk)
    refuses(10, 60000, names, bulk, raw("00"))
    refuses(10, 60000, raw("06"), names, bulk)
    refuses(10, 60000, bulk_names(178), bulk)
    # without the last export, which is 7 bytes
    shorter = times(BULK, MODULES - 1) + BULK[:-1] + joined(exports(n, n + 1) for n in range(3))
    opens(names, shorter, exports(82, 4))
    refuses(10, 59993, names, shorter, raw("050005 00520004"))
    refuses(11, 59993, names, shorter, field(6, b"\0" * 4))
    refuses(12, 59993, names, shorter, name(b"late"))
    refuses(14, 59993, names, shorter, star(3), raw("0300"))
    refuses(15, 59993, names, shorter, exports(83, 4))
    refuses(16, 59993, names, shorter, exports(2, 4))
    # one byte, and two bytes, of a header at the end
    refuses(10, 59999, bulk_names(176), bulk, raw("05"))
    refuses(10, 59998, bulk_names(175), bulk, raw("0500"))
    # the longest to compare: 1,024 names that begin alike, all exported by one module
    alike = like_names(NAMES, 48, 644)
    assert len(flat(alike)) == 10 + 644 * 52 + 379 * 51
    opens(alike, M, joined(exports(n, n) for n in range(NAMES)))
    heading("long sheets of one byte")
    refuses(11, 0, raw("00", 60000))
    refuses(10, 60000, raw("00", 60001))
    refuses(10, 0, raw("ff", 60000))
    refuses(10, 60000, raw("ff", 60001))
    refuses(10, 60000, raw("01", 200000))
    refuses(11, 0, raw("01", 60000))
    # 65,535 bytes of payload never fit
    refuses(10, 60000, raw("01ffff"), raw("61", 65535))
    refuses(10, 0, raw("01ffff"), raw("61", 59997))


def sample_sheet():
    heading("every prefix of the sample")
    starts = [0, 10, 18, 27, 36, 44, 49, 54, 64, 71, 80, 87]
    # what ends between two fields opens, but for these: no name, the import from module 1,
    # the star record at module 2, the one at module 3
    missing = {0: (13, 0), 36: (15, 27), 49: (15, 44), 54: (15, 44), 64: (15, 49), 71: (15, 49)}
    for end in range(len(WHOLE) + 1):
        cut = [(part[: max(0, end - start)], 1) for start, part in zip(starts, SAMPLE)]
        if end in missing:
            refuses(*missing[end], cut)
        elif end in starts:
            opens(cut)
        else:
            refuses(10, max(start for start in starts if start < end), cut)


# Short sheets by chance --------------------------------------------------------------------

SEED = 20
LONGEST = 36
PER_WAY = 44
GOOD = 140


def record(rng, modules):
    """A record whose numbers are small, and mostly good."""
    target = rng.randrange(modules) if rng.randrange(8) else modules + rng.randrange(2)
    tag = rng.choice((STAR, IMPORT, EXPORT))
    if tag == STAR:
        return star(target)
    if tag == EXPORT:
        return exports(rng.randrange(3), rng.randrange(3))
    return imports(rng.randrange(4), target, rng.choice((0, 0, 1, 2, NAMESPACE)))


def short_sheet(rng):
    """The fields of a short sheet that mostly opens."""
    modules = rng.randrange(1, 4)
    fields = [DEFAULT]
    for _ in range(rng.randrange(3)):
        fields.append(name(rng.choice((b"x", b"y", b"xx", b"\0", b"default"))))
    for _ in range(modules):
        kind = rng.choice((ES, ES, ES, EXTERNAL, EMPTY))
        fields.append(module(kind, rng.choice((b"a", b"b", b"ab"))))
        if kind == ES or rng.randrange(4) == 0:
            fields += [record(rng, modules) for _ in range(rng.randrange(4))]
    return [flat(one) for one in fields]


def moved_fields(rng, fields):
    """One field left out, doubled, swapped with another, or put in from another sheet."""
    at, other = rng.randrange(len(fields)), rng.randrange(len(fields))
    how = rng.randrange(4)
    if how == 0:
        del fields[at]
    elif how == 1:
        fields.insert(other, fields[at])
    elif how == 2:
        fields[at], fields[other] = fields[other], fields[at]
    else:
        fields.insert(at, rng.choice(short_sheet(rng)))
    return fields


def changed_bytes(rng, data):
    """One byte changed, left out or put in, or the end left out."""
    at, byte = rng.randrange(len(data)), rng.choice((0, 1, 2, 3, 4, 5, 6, 255))
    how = rng.randrange(6)
    if how == 0:
        return data[:at] + data[at + 1 :]
    if how == 1:
        return data[:at] + bytes([byte]) + data[at:]
    if how == 2:
        return data[:at]
    return data[:at] + bytes([byte]) + data[at + 1 :]


def by_chance(rng):
    fields = short_sheet(rng)
    for _ in range(rng.randrange(3)):
        if fields:
            fields = moved_fields(rng, fields)
    data = b"".join(fields)
    for _ in range(rng.randrange(3)):
        if data:
            data = changed_bytes(rng, data)
    return data


def short_sheets():
    """Sheets by chance, about as many for each way to be refused."""
    heading("short sheets by chance, and damaged ones")
    rng, kept = random.Random(SEED), Counter()
    for _ in range(60000):
        data = by_chance(rng)
        if len(data) > LONGEST or data in SEEN:
            continue
        expected, way = opened(data)
        if kept[way] < (GOOD if way == "opens" else PER_WAY):
            kept[way] += 1
            add([(data, 1)], expected, way)


def damaged_sample():
    heading("the sample with one byte raised by one")
    for at, byte in enumerate(WHOLE):
        data = WHOLE[:at] + bytes([byte + 1]) + WHOLE[at + 1 :]
        add([(data, 1)], *opened(data))


def main():
    by_hand = (
        good_sheets,
        bad_lengths,
        bad_shapes,
        bad_order,
        bad_names,
        over_limits,
        no_record,
        again,
        wrong_kind,
        in_one_field,
        several_fields,
        whole_length,
        sample_sheet,
    )
    for part in by_hand:
        part()
    ways_by_hand = set(WAYS)
    short_sheets()
    damaged_sample()
    assert ways_by_hand == set(WAYS), set(WAYS) - ways_by_hand
    print("\n".join(LINES))
    cases = sum(WAYS.values())
    print("%d cases, %d ways" % (cases, len(WAYS)), file=sys.stderr)


if __name__ == "__main__":
    main()
