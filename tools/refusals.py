"""What a refusal means, and where to look. Nothing is listed here a second time: the numbers stand in crates/refusal, the words and the
calls in tools/boundary.toml, and the causes and the program's checks in docs/SPECIFICATION.md."""

import re
import tomllib
from pathlib import Path
from typing import Iterator

from boundary_source import REFUSALS, TABLE, refusals_in

SPECIFICATION = "docs/SPECIFICATION.md"
ALL, PROGRAM = "2 Refusals", "7 The program"
# A check of the program: its place, the numbers that it answers, and what it looks at.
CHECK = re.compile(r"(\d+)\. ((?:\d+|to|and|,| )+): (.+?)[;.]")
# A row of the table of causes; one without a number goes on with the row before it.
ROW = re.compile(r"\| (\d* ?)\| (.+) \|")


def read(top: Path, path: str) -> str:
    try:
        return (top / path).read_text("utf-8")
    except FileNotFoundError:
        raise ValueError(f"{path} is not there, which says what a refusal means") from None


def section(text: str, heading: str) -> str:
    """What stands under a heading of the specification, up to the next of its rank."""
    _, found, behind = text.partition(f"\n## {heading}\n")
    if not found:
        raise ValueError(f"{SPECIFICATION} has no section '{heading}'")
    return behind.partition("\n## ")[0]


def numbers(words: str) -> set[int]:
    """'1 to 6 and 13' as numbers."""
    out = set()
    for first, last in re.findall(r"(\d+)(?: to (\d+))?", words):
        out |= set(range(int(first), int(last or first) + 1))
    return out


def checks(specification: str) -> Iterator[tuple[int, set[int], str]]:
    """The program's checks in their order."""
    for line in section(specification, PROGRAM).splitlines():
        if found := CHECK.fullmatch(line):
            yield int(found[1]), numbers(found[2]), found[3]


def cause(specification: str, number: int) -> str:
    """The cause of a refusal in the table of all numbers."""
    words, of = [], None
    for line in section(specification, ALL).splitlines():
        if found := ROW.fullmatch(line):
            of = int(found[1]) if found[1].strip() else of
            words += [found[2]] if of == number else []
        elif of is not None:
            break
    if not words:
        raise ValueError(f"{SPECIFICATION}, {ALL}: no row for {number}")
    return " ".join(words)


def explain(top: Path, number: int) -> list[str]:
    """Lines that tell of a refusal. ValueError for a number that is none, and where a document is not there or has another form."""
    causes, table = refusals_in(read(top, REFUSALS)), tomllib.loads(read(top, TABLE))
    name = next((name for name, known in causes.items() if known == number), None)
    if name is None:
        raise ValueError(f"{number} is no refusal: they are 1 to {len(causes)}")
    specification = read(top, SPECIFICATION)
    lines = [f"refusal {number}: {table['refusals'][name]['words']}", f"{cause(specification, number)} ({SPECIFICATION}, {ALL})"]
    found = [f"check {place}, {what}" for place, answers, what in checks(specification) if number in answers]
    lines.append(f"collect answers it by {'; '.join(found)} ({SPECIFICATION}, {PROGRAM})" if found else "collect does not answer it")
    calls = [call for call, row in table["calls"].items() if number in row["refusals"]]
    if calls:
        lines.append(f"calls that answer it: {', '.join(calls)}")
    return lines
