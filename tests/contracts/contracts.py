#!/usr/bin/env python3
"""The contracts of the calls that the documents name.

    contracts.py            says what is wrong, one line for each fault, and ends with exit status 1 if there is any
    contracts.py write      writes contracts.txt

A call that users or the program make must be there, promise something, and ask nothing of its caller: a `requires`
on it would be proved like any other and would quietly take inputs out of its promise. An exported function cites the
records of CITED. And contracts.txt has each contract and each bound as it is, so that one that is weaker than before is
seen by whoever reviews the change.
"""

import re
import sys
from pathlib import Path
from typing import Iterator, NamedTuple, Optional

from snapshot import HEAD, SNAPSHOT, broken, first_difference, flat, of_definitions

TOP = Path(__file__).resolve().parents[2]

EXPORTS = "crates/ffi_*/src/lib.rt"
HEADER = Path("runtime/include/kullneyra.h")
PROMISES = Path("docs/PROMISES.md")

# The paragraph of PROMISES that lists the calls of the crates; the functions that C sees are those of the header.
LIST = re.compile(r"^The calls are .*?(?=\n\n|\Z)", re.MULTILINE | re.DOTALL)
CALL = re.compile(r"`(\w+(?:::\w+)+)`")

# What the contract of each exported function cites. One that is not here answers a length.
LENGTH = ("LengthIn",)
CITED = {
    "kullneyra_header": ("header_answer", "header_words"),
    "kullneyra_read": ("Reads",),
    "kullneyra_references": ("part_answer", "part_words"),
    "kullneyra_mark": ("Marks",),
    "kullneyra_mark_all": ("MarksAll",),
    "kullneyra_begin": ("Begins",),
    "kullneyra_resume": ("Resumes",),
    "kullneyra_sweep": ("sweep_answer", "sweep_list", "sweep_words", "SweepPromise"),
    "kullneyra_deal": ("fault", "turns_of", "Rounds"),
    "kullneyra_draw": ("DrawsIn",),
    "kullneyra_deal_seed": ("DealsIn", "DealPromise"),
    "kullneyra_hops": ("HopsIn",),
    "kullneyra_add": ("AddsIn",),
    "kullneyra_remove": ("RemovesIn",),
    "kullneyra_market_header": ("market_answer", "header_words"),
    "kullneyra_import": ("Imports",),
    "kullneyra_export": ("export_fault", "bytes_after", "Returns"),
    "kullneyra_scan": ("ScansIn",),
}

SKIPPED = re.compile(r"""//[^\n]*|b'(?:\\.|[^\\'])'|"(?:\\.|[^\\"])*\"""")
CLAUSE = re.compile(r"(?:\b(requires|ensures)(\*?(?: +\w+)?)\s*)?\{")
EXPORT = re.compile(r'\bextern\s+"C"\s+fn\s+(\w+)')
IMPORT = re.compile(r"^ghost use [^;]*;", re.MULTILINE)
PROTOTYPE = re.compile(r"^uint32_t (kullneyra_\w+)\(", re.MULTILINE)


def source_of(call: str) -> tuple[Path, str]:
    """The file of a call and the name of its function; a call may stand in a module of its crate."""
    crate, *module, name = call.split("::")
    return Path(f"crates/{crate}/src/{'/'.join(module) or 'lib'}.rt"), name


def calls(promises: str) -> list[str]:
    """The calls that PROMISES lists."""
    return [call for found in LIST.findall(promises) for call in CALL.findall(found)]


def bare(source: str) -> str:
    """The source with comments and literals blanked, but for the "C" of an exported function."""
    return SKIPPED.sub(lambda found: found[0] if found[0] == '"C"' else " " * len(found[0]), source)


class Contract(NamedTuple):
    """A function's signature, and its clauses in their order: `requires` or `ensures`, perhaps with a name, and the text in its braces."""

    signature: str
    clauses: list[tuple[str, str]]

    def said(self, kind: str) -> list[str]:
        return [text for one, text in self.clauses if re.match(r"\w+", one)[0] == kind]


def contract(source: str, declaration: str) -> Optional[Contract]:
    """The contract of the function that is declared so; the source is bare."""
    declared = re.search(declaration + r"\b", source)
    if declared is None:
        return None
    at, first, clauses = declared.end(), None, []
    while (found := CLAUSE.search(source, at)) and found[1]:
        first = found.start() if first is None else first
        depth, at = 1, found.end()
        while depth:
            depth += {"{": 1, "}": -1}.get(source[at], 0)
            at += 1
        clauses.append((found[1] + found[2], flat(source[found.end() : at - 1])))
    end = first if first is not None else found.start() if found else len(source)
    return Contract(flat(source[declared.start() : end]), clauses)


def fault(found: Optional[Contract]) -> Optional[str]:
    """What is wrong with a contract."""
    if found is None:
        return "is not there"
    if found.said("requires"):
        return "has a `requires`"
    if not found.said("ensures"):
        return "promises nothing"
    return None


class Repository:
    """The calls that PROMISES lists and the exported functions, each with its contract."""

    def __init__(self, top: Path):
        def text(path) -> str:
            return (top / path).read_text(encoding="utf-8")

        self.calls: dict[str, Optional[Contract]] = {}
        for call in calls(text(PROMISES)):
            path, name = source_of(call)
            source = bare(text(path)) if (top / path).is_file() else ""
            self.calls[call] = contract(source, rf"\bpub\s+fn\s+{name}")
        exports = bare("\n".join(map(text, sorted(top.glob(EXPORTS)))))
        self.imports = sorted({flat(line) for line in IMPORT.findall(exports)})
        self.declared = set(PROTOTYPE.findall(text(HEADER)))
        names = sorted(self.declared | set(EXPORT.findall(exports)))
        self.exports = {name: contract(exports, rf'\bpub\s+extern\s+"C"\s+fn\s+{name}') for name in names}


def faults(top: Path) -> Iterator[str]:
    found = Repository(top)
    for call, its in found.calls.items():
        if wrong := fault(its):
            yield f"{call} {wrong}"
    for name, its in found.exports.items():
        if wrong := fault(its):
            yield f"{name} {wrong}"
        else:
            words = set(re.findall(r"[^\s(){}]+", " ".join(its.said("ensures"))))
            for record in CITED.get(name, LENGTH):
                if record not in words:
                    yield f"{name} does not cite {record}"
        if name not in found.declared:
            yield f"{name} is not in {HEADER}"
        if name.removeprefix("kullneyra_") not in {source_of(call)[1] for call in found.calls}:
            yield f"{name} has no call of its name in {PROMISES}"
    if not found.declared:
        yield f"{HEADER} declares no function"


def snapshot(top: Path) -> str:
    """contracts.txt as it should be."""
    found = Repository(top)
    lines = [*HEAD, "# the exported functions, and the calls behind them", "", *found.imports]
    for name, its in {**found.exports, **found.calls}.items():
        lines += ["", name, f"  {its.signature}" if its else "  is not there"]
        lines += [f"    {kind} {{ {text} }}" for kind, text in (its.clauses if its else [])]
    lines += of_definitions(top)
    return "\n".join(part for line in lines for part in broken(line)) + "\n"


def difference(top: Path) -> Optional[str]:
    found = (top / SNAPSHOT).read_text(encoding="utf-8") if (top / SNAPSHOT).is_file() else ""
    return first_difference(found, snapshot(top))


def main(arguments: list[str]) -> int:
    if arguments == ["write"]:
        (TOP / SNAPSHOT).write_text(snapshot(TOP), encoding="utf-8")
        return 0
    if arguments:
        print(__doc__)
        return 2
    found = [*faults(TOP), *filter(None, [difference(TOP)])]
    for line in found:
        print(f"contracts: {line}")
    return 1 if found else 0


if __name__ == "__main__":
    sys.exit(main(sys.argv[1:]))
