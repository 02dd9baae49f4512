"""Reads a case in a process of its own, whose memory and time are bounded.

    course_read.py SECONDS FOLDER [REFUSAL] <CASE.txt    writes FOLDER/store.cat and order.run, and prints the objects'
                                                         names and the cards that were dealt; or, with the number of
                                                         a refusal, the line that causes it

It prints JSON: {"names": [..], "deals": [..]}, {"line": N} or {"fault": TEXT, "key": KEY, "values": {..}, "line": N}.
"""

import json
import resource
import sys
from pathlib import Path
from typing import Optional

import case

MEMORY = 1 << 30
# A case that is read has no more bytes.
MOST_TEXT = 1 << 20
LONGEST_NAME, MOST_DEALS = 24, 500


def names(one: case.Case, text: str) -> list[str]:
    """What stands as a comment behind each object's line."""
    lines = case.lines_of(text)
    behind = (lines[at - 1].partition("#")[2] for at in one.lines["object"])
    return [" ".join(words.split())[:LONGEST_NAME] for words in behind]


def deals(one: case.Case, text: str) -> list[dict]:
    """The rounds that cards or seeds dealt: the turn before each, its card if that is known, and its boxes in order."""
    lines, out, boxes, at = case.lines_of(text), [], one.settings["boxes"], 0
    while at < len(one.turns) and len(out) < MOST_DEALS:
        word, *rest = lines[one.lines["turn"][at] - 1].split("#")[0].split()
        if word not in ("cards", "seed"):
            at += 1
            continue
        rounds = len(rest) if word == "cards" else int(rest[-1])
        for place in range(min(rounds, MOST_DEALS - len(out))):
            card = int(rest[place]) if word == "cards" else None
            out.append({"turn": at + place * boxes, "card": card, "boxes": [box for box, _ in one.turns[at + place * boxes:at + (place + 1) * boxes]]})
        at += rounds * boxes
    return out


def blame(one: case.Case, number: int) -> Optional[int]:
    """The line that causes this refusal, where one does: of several, that of the part which the library looks at first."""
    found = case.suspect(one, number)
    return one.lines[found[0]][found[1]] if found else None


def answer(text: str, folder: Path, refusal: Optional[int]) -> dict:
    try:
        one = case.parse(text)
        if refusal is not None:
            return {"line": blame(one, refusal)}
        case.save(one, folder)
        return {"names": names(one, text), "deals": deals(one, text)}
    except case.Fault as fault:
        return {"fault": fault.text, "key": fault.key, "values": fault.values, "line": fault.line}


def main(words: list[str]) -> int:
    resource.setrlimit(resource.RLIMIT_AS, (MEMORY, MEMORY))
    resource.setrlimit(resource.RLIMIT_CPU, (int(words[0]), int(words[0])))
    text = sys.stdin.buffer.read().decode("utf-8")
    print(json.dumps(answer(text, Path(words[1]), int(words[2]) if len(words) > 2 else None)))
    return 0


if __name__ == "__main__":
    sys.exit(main(sys.argv[1:]))
