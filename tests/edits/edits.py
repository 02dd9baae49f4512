#!/usr/bin/env python3
"""What each must-fail edit fails by: the first thing that the prover said has to be a fact that has become false.

`rt ci` asks only that the crate is refused with the edit. An edit that no longer fits (a name of a proof is gone, a type is another,
a place of a proof is another) is refused as well, and attacks nothing. Of each edit rt prints a line, with the beginning of what the
prover said first; the gate keeps what `rt ci` printed as target/ci.log. So of every crates/CRATE/must-fail/NAME.edit:

    the edit can be made, and its line is there, from after the files of the crate and the edit were written
    the edit was refused by the prover, and not only by a limit of it, or since a proof names what the edit took away
    what was said first is one of FACTS: terms that differ, a goal that does not follow, a drawing's other row
    an error does not stand in the line that the edit writes, which would then not even fit in its place

And a folder must-fail holds nothing but such edits, and a crate without any is one of WITHOUT_EDITS. Prints what is wrong, one
line for each fault, and ends with exit status 1 if there is any. `edits.py LOG` reads another log, as of `rt must-fail CRATE..`,
and looks only at the crates that it names.
"""

import re
import sys
from pathlib import Path
from typing import Iterator, NamedTuple, Optional

TOP = Path(__file__).resolve().parents[2]
LOG = Path("target/ci.log")
PARTS = ("src", "specs", "proofs")

# The crates that need no edit, and why.
WITHOUT_EDITS = {
    "add": "its definitions are those of `changes` and `updates`",
    "checkpoint": "its definitions are those of `saved`",
    "collect": "the program around `report`, which has the edits of its text",
    "deck": "a program that prints the cards of `cards`",
    "ffi_mark": "passes on to `marker`, `mark_all`, `begin`, `resume` and `sweep`",
    "ffi_schedule": "passes on to `cards`, `seed` and `seed_deal`",
    "ffi_store": "passes on to `catalogue`, `graph` and `market`",
    "ffi_update": "passes on to `hops` and `updates`",
    "laws": "has no word of the product",
    "market": "its definitions are those of `matrix`, its leaves `parse` and `print`",
    "report": "its definitions are those of `program`, its leaf `lines`",
    "saved_theorems": "its definitions are those of `saved`, whose edits the drawings refuse",
    "turns": "its definitions are those of `machine`, its leaves `follow`, `idle`, `poll` and `step`",
}

# rt's line of an edit, and of one that was refused, which has the beginning of what the prover said: an error, or a note where a search of its
# own found nothing. The name of the declaration before it is left out.
TRIED = re.compile(r"^rt: must-fail (?P<crate>\w+)/(?P<name>\S+)\.edit: (?P<told>.*)$", re.MULTILINE)
REFUSED = re.compile(r"refused, as it must be(?: \((?P<only>only .*?)\))?(?:: (?P<said>.*))?$")
SAID = re.compile(r"(?P<note>note: )?(?:\./)?(?P<file>\S+?):(?P<line>\d+):\d+: (?:error: )?(?:`[^`]*`: )?(?P<text>.*)")

# A fact that fails, in the prover's own words, of which rt may have left out the end.
FACTS = (
    r"the two (?:types|indices|terms) (?:first differ|differ only|differ|are)\b",
    r"the two sides (?:first differ|differ\b|are ``|are not convertible)",
    r"^computed as a goal is, one side reads ``",
    r"expected type ``(?:$|,? but this has type ``)",
    r"`` ≟ ``(?:$|:?(?:$| does(?:$| not(?:$| hold\b))))",
    r"^`omega`: the (?:goal|part `` of the goal) does not follow from what it read",
    r"`cc`: the equations do not join ``",
    r"^`search`: no proof of ``",
    r"^give a proof of that as the last argument, ``",
    r"`(?:rw|simp)` has no last argument, so what it leaves must be a path whose two ends are equal",
    r"no occurrence of the path's left endpoint in the goal",
    r"^`search` found no proof \(``\)",
    r"^it is not proved that ",
)

# A text that does not fit, in the prover's own words.
UNFIT = (
    ("a missing field", r"missing field"),
    ("a field that is not there", r"^record `` has no|has no field"),
    ("a place that is not there", r"has no `Need-"),
    ("an unknown name", r"is not in scope|can be named from here|unbound|unknown name|exports no `"),
    ("a parse error", r"^expected (?:an?|the|one of)\b.*, found\b|parse error|unexpected|found the start of a new declaration"),
    ("a clause that does not fit", r"has no clause for|exact case split|is not a constructor of|does not define it|is private"),
    ("something that was not admitted", r"was not admitted"),
    ("what was not checked, since a name is gone", r"^\d+ declarations? that depends? on ``, which was rejected"),
    ("something undetermined", r"unsolved \?|was not determined|not yet determined|takes its meaning from the type"),
    ("a file that is not there", r"[Nn]o such file|cannot be read"),
    ("a fault of the tool", r"native extension|internal error|panicked|out of memory|step limit|please report this"),
)


class Edit(NamedTuple):
    crate: str
    name: str
    path: Path

    def pairs(self) -> list[tuple[str, str, str]]:
        """File, old text and new text of each replacement, as `rt must-fail` reads them."""
        found, file, old = [], "", ""
        for line in self.path.read_text(encoding="utf-8").splitlines():
            if line.startswith("file: "):
                file = line.removeprefix("file: ")
            elif line.startswith("old: "):
                old = line.removeprefix("old: ")
            elif line.startswith("new:"):
                found.append((file, old, line.removeprefix("new:").removeprefix(" ")))
        return found


class Unfit(Exception):
    """An edit that cannot be made."""


def edited(edit: Edit, crate: Path) -> tuple[dict[str, str], dict[str, set[int]]]:
    """The crate's files with the edit, and the lines of them that it writes."""
    paths = [path for part in PARTS for path in sorted((crate / part).rglob("*")) if path.is_file()]
    files = {str(path.relative_to(crate)): path.read_text(encoding="utf-8") for path in paths}
    lines: dict[str, set[int]] = {}
    if not edit.pairs():
        raise Unfit("changes nothing")
    for file, old, new in edit.pairs():
        text = files.get(file, "")
        if not old or text.count(old) != 1:
            raise Unfit(f"has an old text that is not in {file} just once: {old}")
        at = text.index(old)
        files[file] = text.replace(old, new)
        lines.setdefault(file, set()).add(text.count("\n", 0, at) + 1)
    return files, lines


# What is left of what the prover quotes, which may have any words: its tactics, and the places of a proof.
KEPT = re.compile(r"omega|cc|search|rw|simp|Need-.*")
QUOTED = re.compile(r"`([^`]*)(?:`|$)")

# A term, and no name, of which rt left out the end, and all behind it: two sides that are not the same begin so.
CUT = re.compile(r"`[^`\s]+ [^`]*")


def kind(message: str) -> Optional[str]:
    """What is wrong with what was said first; None for a fact that fails. What stands first counts: advice may follow."""
    if CUT.fullmatch(" ".join(message.split())):
        return None
    text = QUOTED.sub(lambda quoted: quoted[0] if KEPT.fullmatch(quoted[1]) else "``", " ".join(message.split()))
    kinds = [(None, pattern) for pattern in FACTS] + list(UNFIT)
    said = [(found.start(), name) for name, pattern in kinds if (found := re.search(pattern, text))]
    return min(said, key=lambda one: one[0])[1] if said else "no kind that tests/edits/edits.py knows"


def tried(log: str) -> dict[tuple[str, str], str]:
    """What rt says of each edit."""
    return {(found["crate"], found["name"]): found["told"] for found in TRIED.finditer(log)}


def fault(edit: Edit, crate: Path, told: Optional[str]) -> Optional[str]:
    """What is wrong with an edit, or with what rt says of it."""
    try:
        _, lines = edited(edit, crate)
    except Unfit as wrong:
        return str(wrong)
    if told is None:
        return "has no line in the log: run make test"
    refused = REFUSED.match(told)
    if refused is None:
        return f"was not refused by the prover: {told[:160]}"
    if refused["only"]:
        return f"is refused {refused['only'].partition(',')[0]}: {refused['said'] or ''}"
    first = SAID.match(refused["said"] or "")
    if first is None:
        return "is refused without an error, and without a search that finds nothing"
    if wrong := kind(first["text"]):
        return f"fails by {wrong}, at {first['file']}:{first['line']}: {first['text']}"
    if not first["note"] and int(first["line"]) in lines.get(first["file"], ()):
        return f"does not fit in its own line, {first['file']}:{first['line']}: {first['text']}"
    return None


def younger(crate: Path, log: Path) -> Optional[Path]:
    """A file of the crate that was written after the log was begun."""
    paths = (path for part in (*PARTS, "must-fail") for path in sorted((crate / part).rglob("*")) if path.is_file())
    return next((path for path in paths if path.stat().st_mtime_ns > log.stat().st_mtime_ns), None)


def faults(top: Path, log: Optional[Path] = None) -> Iterator[str]:
    """With a log of its own, of the crates that it names alone."""
    path = log or top / LOG
    if not path.is_file():
        yield f"{LOG} is not there: run make test"
        return
    told = tried(path.read_text(encoding="utf-8", errors="replace"))
    named = {crate for crate, _ in told}
    for crate in sorted(place for place in (top / "crates").iterdir() if place.is_dir() and (log is None or place.name in named)):
        folder, edits = crate / "must-fail", []
        for one in sorted(folder.rglob("*")):
            if one.parent == folder and one.is_file() and one.suffix == ".edit":
                edits.append(Edit(crate.name, one.stem, one))
            else:
                yield f"{one.relative_to(top)} is no edit: an edit is crates/CRATE/must-fail/NAME.edit"
        if not edits and crate.name not in WITHOUT_EDITS:
            yield f"{crate.name} has no edit in must-fail, and is none of WITHOUT_EDITS in tests/edits/edits.py"
        if edits and crate.name in WITHOUT_EDITS:
            yield f"{crate.name} has edits: it is none of WITHOUT_EDITS in tests/edits/edits.py"
        if edits and log is None and (new := younger(crate, path)):
            yield f"{new.relative_to(top)} was written after {LOG}: run make test"
        for edit in edits:
            if wrong := fault(edit, crate, told.get((crate.name, edit.name))):
                yield f"{crate.name}/{edit.name} {wrong}"
    for crate, name in sorted(told):
        if not (top / "crates" / crate / "must-fail" / f"{name}.edit").is_file():
            yield f"{crate}/{name} has a line in the log, and is not there"
    if log is None:
        for name in sorted(set(WITHOUT_EDITS) - {place.name for place in (top / "crates").iterdir()}):
            yield f"{name} of WITHOUT_EDITS is no crate"


def main(words: list[str]) -> int:
    found = list(faults(TOP, Path(words[0]) if words else None))
    for line in found:
        print(f"edits: {line}")
    return 1 if found else 0


if __name__ == "__main__":
    sys.exit(main(sys.argv[1:]))
