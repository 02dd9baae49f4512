#!/usr/bin/env python3
"""A published graph as `import` takes it: Matrix Market, coordinate pattern general (docs/SPECIFICATION.md, 13.1).

    market.py IN.mtx OUT.mtx    writes OUT.mtx, and says on standard error what was changed
    market.py --check IN.mtx    writes nothing and says what would be changed; ends with 0 only where nothing would be

'-' is standard input or output. What gzip or bzip2 packed is unpacked.

What readers of Matrix Market take is taken: carriage returns, capitals in the first line, any spaces, blank lines, comments anywhere,
a last line without its line feed, real, integer and complex values, symmetric, skew-symmetric and hermitian matrices. Comments before the
counts stay. Row and column of an entry are from and to. Values are dropped, and an entry whose value is 0 stays: it names an object all
the same. Of a symmetric matrix each entry off the diagonal has its mirror behind it. Entries that stand there twice stay twice.

What is no graph, or larger than a store may be, is refused with a sentence that names the file and the line. Whether the result is
taken is for `import` to say, which is proved.
"""

import argparse
import bz2
import gzip
import re
import shutil
import sys
import tempfile
import zlib
from array import array
from pathlib import Path
from typing import BinaryIO, Iterator

BANNER = b"%%MatrixMarket matrix coordinate pattern general"
FORM = "%%MatrixMarket matrix coordinate FIELD SYMMETRY"
# How many words a value has, by the field; and the symmetries, of which all but the first have mirrors.
FIELDS = {"pattern": 0, "real": 1, "double": 1, "integer": 1, "unsigned-integer": 1, "complex": 2}
SYMMETRIES = ("general", "symmetric", "skew-symmetric", "hermitian")
# The most of a store (SPECIFICATION 1), and of a line of Matrix Market.
MOST_OBJECTS, MOST_REFERENCES, MOST_LINE = 65_536, 1_048_576, 1_024
WHOLE = re.compile(rb"(\+?)(0*)([0-9]+)")
VALUE = re.compile(rb"[+-]?(?:(?:[0-9]+\.?[0-9]*|\.[0-9]+)(?:[ed][+-]?[0-9]+)?|inf|infinity|nan)", re.IGNORECASE)
ZERO = re.compile(rb"[+-]?[0.]+(?:[ed][+-]?[0-9]+)?", re.IGNORECASE)

# What may be changed, in the order in which it is told.
CHANGES = {
    "packed": "it was packed",
    "mark": "the byte order mark is dropped",
    "banner": "the first line is the one that import takes",
    "returns": "carriage returns before line feeds are dropped",
    "spaces": "numbers are parted by one space, and nothing stands beside them",
    "signs": "plus signs and zeros in front of numbers are dropped",
    "blank": "blank lines are dropped",
    "comments": "comments behind the counts are dropped",
    "long": f"comments are cut at {MOST_LINE:,} bytes",
    "values": "values are dropped",
    "zeros": "entries whose value is 0 stay, as references",
    "mirrors": "entries off the diagonal have their mirrors behind them",
    "end": "the last line has its line feed",
}


class Fault(Exception):
    """Why a file is not taken, and its line."""

    def __init__(self, line: int, text: str):
        super().__init__(text)
        self.line = line


class Changes:
    """What was changed: how often, and in which line first."""

    def __init__(self):
        self.found: dict[str, list[int]] = {}

    def note(self, what: str, line: int) -> None:
        self.found.setdefault(what, [0, line])[0] += 1

    def told(self) -> list[str]:
        out = []
        for what, said in CHANGES.items():
            count, line = self.found.get(what, (0, 0))
            if count:
                out.append(f"{said} (line {line})" if count == 1 else f"{said} ({count:,} lines, the first is line {line})")
        return out


def unpacked(file: BinaryIO, changes: Changes) -> BinaryIO:
    """What the file holds."""
    begins = file.peek(3)
    for magic, way in ((b"\x1f\x8b", gzip.open), (b"BZh", bz2.open)):
        if begins.startswith(magic):
            changes.note("packed", 1)
            return way(file)
    return file


def lines(file: BinaryIO, changes: Changes) -> Iterator[tuple[int, bytes]]:
    """The lines with their numbers, without what ends them."""
    number, most = 0, MOST_LINE + len(b"\r\n")
    while line := file.readline(most):
        number += 1
        if len(line) == most and not line.endswith(b"\n"):
            if not line.lstrip().startswith(b"%"):
                raise Fault(number, f"the line has more than {MOST_LINE:,} bytes")
            changes.note("long", number)
            rest = line
            while rest and not rest.endswith(b"\n"):
                rest = file.readline(most)
            line = line[:MOST_LINE] + (b"\n" if rest else b"")
        if number == 1 and line.startswith(b"\xef\xbb\xbf"):
            changes.note("mark", 1)
            line = line[3:]
        if not line.endswith(b"\n"):
            changes.note("end", number)
        elif line.endswith(b"\r\n"):
            changes.note("returns", number)
            line = line[:-2]
        else:
            line = line[:-1]
        yield number, line


def quoted(line: bytes) -> str:
    text = line.decode("ascii", "replace").strip()
    return f"'{text[:60]}…'" if len(text) > 60 else f"'{text}'"


def banner_of(line: bytes, changes: Changes) -> tuple[int, bool]:
    """Of the first line: how many words a value has, and whether entries have mirrors."""
    words = line.decode("ascii", "replace").lower().split()
    if len(words) != 5 or words[0] != "%%matrixmarket":
        raise Fault(1, f"expected: {FORM}; found: {quoted(line)}")
    _, what, form, field, symmetry = words
    if what != "matrix":
        raise Fault(1, f"a {what} is no graph; expected: {FORM}")
    if form == "array":
        raise Fault(1, "an array has a value for every place, and so no references; a graph is a coordinate file")
    for word, known in ((form, ("coordinate",)), (field, FIELDS), (symmetry, SYMMETRIES)):
        if word not in known:
            raise Fault(1, f"{quoted(word.encode())} is none of {', '.join(known)}")
    if line != BANNER:
        changes.note("banner", 1)
    return FIELDS[field], symmetry != SYMMETRIES[0]


def whole(number: int, word: bytes, changes: Changes) -> int:
    """A number without a sign before it."""
    found = WHOLE.fullmatch(word)
    if not found or len(found[3]) > 10:
        raise Fault(number, f"{quoted(word)} is no number of one to ten digits")
    if found[1] or found[2] and found[3]:
        changes.note("signs", number)
    return int(found[3])


def counts_of(number: int, line: bytes, changes: Changes) -> tuple[int, int]:
    """Rows and entries."""
    words = line.split()
    if len(words) != 3:
        raise Fault(number, f"expected: ROWS COLUMNS ENTRIES; found: {quoted(line)}")
    if b" ".join(words) != line:
        changes.note("spaces", number)
    rows, columns, entries = (whole(number, word, changes) for word in words)
    if rows != columns:
        raise Fault(number, f"{rows:,} rows and {columns:,} columns: a graph has as many rows as columns")
    if not 1 <= rows <= MOST_OBJECTS:
        raise Fault(number, f"{rows:,} rows: a store has 1 to {MOST_OBJECTS:,} objects")
    if entries > MOST_REFERENCES:
        raise Fault(number, f"{entries:,} entries: a store has up to {MOST_REFERENCES:,} references")
    return rows, entries


def entry_of(number: int, line: bytes, rows: int, valued: int, changes: Changes) -> tuple[int, int]:
    """Row and column of an entry."""
    words = line.split()
    if len(words) != 2 + valued:
        form = ("ROW COLUMN", "ROW COLUMN VALUE", "ROW COLUMN REAL IMAGINARY")[valued]
        raise Fault(number, f"expected: {form}; found: {quoted(line)}")
    if b" ".join(words) != line:
        changes.note("spaces", number)
    row, column = (whole(number, word, changes) for word in words[:2])
    for value in (row, column):
        if not 1 <= value <= rows:
            raise Fault(number, f"{value} is no row or column: they are counted from 1 to {rows}")
    for word in words[2:]:
        if not VALUE.fullmatch(word):
            raise Fault(number, f"{quoted(word)} is no value")
    if valued:
        changes.note("values", number)
        if all(ZERO.fullmatch(word) for word in words[2:]):
            changes.note("zeros", number)
    return row, column


def convert(file: BinaryIO, out: BinaryIO) -> Changes:
    """Writes the graph that the file holds as import takes it. Nothing is kept in memory but the pairs, of which there are few enough."""
    changes = Changes()
    told = lines(unpacked(file, changes), changes)
    number, line = next(told, (1, b""))
    valued, mirrored = banner_of(line, changes)
    out.write(BANNER + b"\n")
    counts, pairs, seen = None, array("L"), 0
    for number, line in told:
        if not line.strip():
            changes.note("blank", number)
        elif line.lstrip().startswith(b"%"):
            if counts is not None:
                changes.note("comments", number)
            else:
                if not line.startswith(b"%"):
                    changes.note("spaces", number)
                out.write(line.lstrip() + b"\n")
        elif counts is None:
            counts = rows, entries = counts_of(number, line, changes)
        elif seen == entries:
            raise Fault(number, f"the counts promise {entries:,} entries, and there are more")
        else:
            row, column = entry_of(number, line, rows, valued, changes)
            pairs.extend((row, column))
            seen += 1
            if mirrored and row != column:
                changes.note("mirrors", number)
                pairs.extend((column, row))
            if len(pairs) > 2 * MOST_REFERENCES:
                raise Fault(number, f"with their mirrors more than {MOST_REFERENCES:,} entries: a store has up to so many references")
    if counts is None:
        raise Fault(number, "the file ends before its counts: ROWS COLUMNS ENTRIES")
    if seen != entries:
        raise Fault(number, f"the counts promise {entries:,} entries, and there are {seen:,}")
    out.write(b"%d %d %d\n" % (rows, rows, len(pairs) // 2))
    out.writelines(b"%d %d\n" % pair for pair in zip(pairs[::2], pairs[1::2]))
    return changes


def opened(path: str) -> BinaryIO:
    return sys.stdin.buffer if path == "-" else open(path, "rb")


def write(source: str, target: str) -> Changes:
    """Converts a file. What cannot be converted whole leaves the file of before."""
    if target == "-":
        with opened(source) as file, tempfile.TemporaryFile() as made:
            changes = convert(file, made)
            made.seek(0)
            shutil.copyfileobj(made, sys.stdout.buffer)
            sys.stdout.buffer.flush()
            return changes
    beside = Path(f"{target}.new")
    try:
        with opened(source) as file, open(beside, "wb") as made:
            changes = convert(file, made)
        beside.replace(target)
        return changes
    finally:
        beside.unlink(missing_ok=True)


def check(source: str) -> Changes:
    with opened(source) as file, tempfile.TemporaryFile() as made:
        return convert(file, made)


def main(words: list[str]) -> int:
    parser = argparse.ArgumentParser(prog="market.py", description=__doc__, formatter_class=argparse.RawDescriptionHelpFormatter)
    parser.add_argument("--check", action="store_true", help="writes nothing")
    parser.add_argument("source", metavar="IN.mtx")
    parser.add_argument("target", metavar="OUT.mtx", nargs="?")
    asked = parser.parse_args(words)
    if asked.check == (asked.target is not None):
        parser.error("IN.mtx and OUT.mtx, or --check and IN.mtx")
    name = "standard input" if asked.source == "-" else asked.source
    try:
        changes = check(asked.source) if asked.check else write(asked.source, asked.target)
    except Fault as fault:
        print(f"market.py: {name}, line {fault.line}: {fault}", file=sys.stderr)
        return 1
    except (OSError, EOFError, zlib.error) as fault:
        print(f"market.py: {name}: {fault}", file=sys.stderr)
        return 1
    for said in changes.told() or ["nothing is changed"]:
        print(f"market.py: {name}: {said}", file=sys.stderr)
    return 1 if asked.check and changes.found else 0


if __name__ == "__main__":
    sys.exit(main(sys.argv[1:]))
