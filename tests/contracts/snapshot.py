"""The contracts and the definitions behind them as one text, contracts.txt, so that a change of either shows in a review.

A call has its signature and each `requires` and `ensures` by itself; a definition has each field and each equation so. Of a
file whose definitions are all there, and of the exported functions, it has the imports, too: they say what a name stands for.
White space and comments are left out, and lines are broken anew.
"""

import re
import textwrap
from pathlib import Path
from typing import Iterator, Optional

SNAPSHOT = Path("tests/contracts/contracts.txt")
WRITE = "tests/contracts/run write"

HEAD = (
    "The contracts of the calls, the records that they cite, and the bounds.",
    f"`{WRITE}` writes this anew, for a change that is meant.",
    "",
)

# The definitions: a file of crates/, and the names in it; None for all.
DEFINITIONS: dict[str, Optional[tuple[str, ...]]] = {
    "kullneyra/specs/Promise.antt": None,
    "kullneyra/specs/Calls.antt": None,
    "kullneyra/specs/Blobs.antt": None,
    "names/specs/Occurs.antt": None,
    "theorems/specs/Collected.antt": ("Collected",),
    "machine/specs/Demand2.antt": ("FinishedMarks", "LiveMarks", "Demand2"),
    "machine/specs/Demand3.antt": ("moved_bound", "stretch_bound", "fewest_stretches", "handed_bound", "Cut", "Demand3"),
    "rounds/specs/Whole.antt": ("next_of", "round_from", "rounds_of", "enough_rounds", "whole_of"),
    "theorems/specs/Waiting.antt": ("reply_bound", "refusal_bound", "Asked", "Reply", "Waits"),
    "catalogue/specs/Acceptance.antt": ("Returned", "Acceptance"),
    "sweep/specs/Collection.antt": ("Collection",),
    "saved/specs/Sound.antt": ("SavedRun",),
    "saved/specs/Calls.antt": ("Afresh", "Joined"),
    "hands/specs/Hand.antt": ("Rounds",),
    "seed/specs/Draw.antt": ("DrawRow", "draw_row"),
    "layers/specs/Hops.antt": ("HopsOf", "LinksLeft"),
    "changes/specs/Marking.antt": ("ListLeft",),
    "changes/specs/Promise.antt": ("AddPromise", "RemovePromise"),
    "matrix/specs/Promise.antt": ("Accepts", "Returns"),
    "program/specs/Promise.antt": ("Promise",),
    "graph/specs/Leaving.antt": ("ReachedReferences",),
    "graph/specs/Limits.antt": None,
    "desk/specs/Limits.antt": None,
    "program/specs/Limits.antt": None,
    "hands/specs/Deck.antt": ("card_workers", "deck_size"),
    "refusal/specs/Number.antt": ("number",),
}

# Where a definition begins, at the beginning of a line; an equation of it begins with its name alone.
DECLARED = re.compile(r"(?:(?:pub|abbrev|unfoldable) )*(?:record |data )?(?P<name>[^\s:({]+)(?= [:({])")


def flat(text: str) -> str:
    """A text on one line, without what only a broken line has."""
    return re.sub(r"\( ", "(", re.sub(r",? \)", ")", " ".join(text.split())))


def broken(line: str) -> list[str]:
    """A line as lines of at most 120 characters."""
    indent = " " * (len(line) - len(line.lstrip()))
    wrap = textwrap.TextWrapper(120, initial_indent=indent, subsequent_indent=f"{indent}        ")
    wrap.break_long_words = wrap.break_on_hyphens = False
    return wrap.wrap(line.strip()) or [""]


def definitions(source: str) -> dict[str, list[str]]:
    """The definitions of a file by name, and its imports, each as its lines: continued ones are joined, comments left out."""
    found: dict[str, list[str]] = {}
    name = ""
    for line in source.splitlines():
        text = line.split("--")[0].rstrip() if line.lstrip().startswith("--") else line.rstrip()
        if not text:
            continue
        indent = len(text) - len(text.lstrip())
        if text.startswith(("use ", "pub use ")):
            name = "use"
            found.setdefault(name, []).append(flat(text))
        elif indent == 0:
            declared = DECLARED.match(text)
            if declared and declared["name"] not in found:
                name = declared["name"]
            found.setdefault(name, []).append(flat(text))
        elif indent == 2 and re.match(r"(?:pub )?\S+(?: \S+)* :", text.strip()):
            found[name].append("  " + flat(text))
        else:
            found[name][-1] += " " + flat(text)
    return found


def of_definitions(top: Path) -> Iterator[str]:
    """The part of the text that has the definitions. One that is not there is a fault of its own line."""
    for path, names in DEFINITIONS.items():
        there = definitions((top / "crates" / path).read_text(encoding="utf-8"))
        yield ""
        yield f"# {path}"
        for name in names or there:
            yield ""
            yield from there.get(name, [f"{name} is not there"])


def first_difference(found: str, wanted: str) -> Optional[str]:
    """Where the text of the repository is not the one that its files make."""
    if found == wanted:
        return None
    one, other = ([*text.split("\n"), "the end"] for text in (found, wanted))
    number, was, now = next((at, *pair) for at, pair in enumerate(zip(one, other), 1) if pair[0] != pair[1])
    return f"{SNAPSHOT}:{number}: {was.strip()!r} is now {now.strip()!r}; {WRITE} takes a change that is meant"
