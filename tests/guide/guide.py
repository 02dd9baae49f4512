#!/usr/bin/env python3
"""The commands of README.md and docs/GUIDE.md: each is run, in their order, in a copy of the repository, and what it prints is
compared with what the page says. A fenced block of a page is one of

    sh            commands for bash, typed in the repository's folder; they end with status 0
    text          what the commands before it print, where the paragraph between the two begins with "prints"; the end of it, with
                  "ends in". A short answer may stand in the paragraph itself: prints `so and so`
    c, rust, go   a file, written to the NAME of the line <!-- file: NAME --> before the block, which the paragraph before it names

Two further lines may stand before a block:

    <!-- not run: WHY -->     commands that the gate cannot run; WHY is one of NOT_RUN
    <!-- from: FILE -->       a text that stands so in a file of the repository, which tests/promises looks at

Prints the commands that are not run, and what is wrong, one fault after the other, and ends with exit status 1 if there is any.
"""

import difflib
import os
import re
import shutil
import signal
import subprocess
import sys
import tempfile
from dataclasses import dataclass
from pathlib import Path
from typing import Iterator, Optional

TOP = Path(__file__).resolve().parents[2]
PAGES = ("README.md", "docs/GUIDE.md")

# Why commands are not run, and how many blocks may be marked so.
NOT_RUN = ("the gate itself", "serves until it is stopped", "installs packages", "your own store")
MOST_NOT_RUN = 5

# Of target/ the copy has what the gate proved and built, and the stamps by which nothing of that is made again; of crates/ not what rt keeps there.
COPIED = ("bin/collect", "bin/collect.stamp", "bin/deck", "bin/deck.stamp", "staticlib", "course")
NEEDED = ("bin/collect", "bin/collect.stamp", "staticlib/libkullneyra.a")
SECONDS = 300  # for one block; all of them take less than a minute

FENCE = re.compile(r"^```(.*)$")
MARK = re.compile(r"^<!-- (file|not run|from): (.+) -->$")
ANSWER = re.compile(r"(prints|ends in)\b(?: `([^`]+)`)?")
WORDS, COMMANDS, TEXT, FILES = "words", "sh", "text", ("c", "rust", "go")


class Fault(Exception):
    """A page that is not as the first lines of this file say."""


@dataclass
class Part:
    """A paragraph of a page, or a fenced block with the mark before it."""

    page: str
    line: int
    kind: str  # WORDS, or the name behind the fence
    text: str = ""
    mark: str = ""
    given: str = ""  # what the mark says

    @property
    def place(self) -> str:
        return f"{self.page}:{self.line}"


@dataclass
class Step:
    """Something to be done in the copy: a file to be written, or commands to be run, with what they have to print."""

    part: Part
    answer: Optional[str] = None
    only_end: bool = False


def parts(page: str, text: str) -> Iterator[Part]:
    """The paragraphs and blocks of a page, in order."""
    mark, part = ("", ""), None
    for line, words in enumerate(text.split("\n"), 1):
        fenced = part is not None and part.kind != WORDS
        if fenced and words != "```":
            part.text += words + "\n"
        elif fenced or part is not None and not words.strip():
            yield part
            part = None
        elif found := FENCE.match(words):
            if part is not None:
                raise Fault(f"{page}:{line}: a block has an empty line before it, or its mark")
            part, mark = Part(page, line, found[1], "", *mark), ("", "")
        elif mark != ("", ""):
            raise Fault(f"{page}:{line}: a mark stands right before a block")
        elif found := MARK.match(words):
            mark = found[1], found[2]
        elif "<!--" in words:
            raise Fault(f"{page}:{line}: this mark is not known")
        elif part is not None:
            part.text += " " + words.strip()
        elif words.startswith("    "):
            raise Fault(f"{page}:{line}: an indented block: commands stand in a fenced one")
        elif words.strip():
            part = Part(page, line, WORDS, words.strip())
    if part is not None:
        raise Fault(f"{part.place}: the page ends within it")


def steps(page: list[Part]) -> Iterator[Step]:
    """What a page has done, in order."""
    told = -1  # the place of a text that is the answer of the commands before it
    for at, part in enumerate(page):
        if part.kind == WORDS or at == told:
            continue
        if part.kind == COMMANDS and part.mark == "":
            step = Step(part)
            if at + 1 < len(page) and page[at + 1].kind == WORDS and (found := ANSWER.match(page[at + 1].text)):
                step.only_end = found[1] == "ends in"
                if found[2]:
                    step.answer = found[2] + "\n"
                elif at + 2 < len(page) and page[at + 2].kind == TEXT:
                    told, step.answer = at + 2, page[at + 2].text
                else:
                    raise Fault(f"{page[at + 1].place}: what is printed does not stand behind it")
            yield step
        elif part.kind == COMMANDS and part.mark == "not run":
            if part.given not in NOT_RUN:
                raise Fault(f"{part.place}: not run: {part.given}: no reason that is known")
            yield Step(part)
        elif part.kind in FILES and part.mark == "file":
            if not at or f"`{part.given}`" not in page[at - 1].text:
                raise Fault(f"{part.place}: the paragraph before it does not name {part.given}")
            yield Step(part)
        elif part.kind != TEXT or part.mark != "from":
            raise Fault(f"{part.place}: a block of the kind {part.kind or 'without a name'} and the mark {part.mark or 'none'}")


def plan(top: Path) -> list[Step]:
    """What the pages have done, in order."""
    todo = [step for page in PAGES for step in steps(list(parts(page, (top / page).read_text(encoding="utf-8"))))]
    skipped = sum(step.part.mark == "not run" for step in todo)
    if skipped > MOST_NOT_RUN:
        raise Fault(f"{skipped} blocks are not run; {MOST_NOT_RUN} may be")
    return todo


def copy(top: Path, place: Path) -> None:
    """The repository's files with their times, and of target/ what the gate made."""
    shutil.copytree(top, place, symlinks=True, ignore=shutil.ignore_patterns(".git", "__pycache__", "target", "out"))
    for name in COPIED:
        source, to = top / "target" / name, place / "target" / name
        to.parent.mkdir(parents=True, exist_ok=True)
        if source.is_dir():
            shutil.copytree(source, to, ignore=shutil.ignore_patterns("parts.*"))
        elif source.exists():
            shutil.copy2(source, to)


def environment(top: Path, place: Path) -> dict[str, str]:
    """That of somebody who types the commands: nothing of the gate's make, no network for Go, and Go's cache of the repository."""
    left_out = ("MAKE", "MFLAGS", "KULLNEYRA", "CARGO_TARGET_DIR", "RUSTFLAGS", "CGO_", "GOFLAGS", "PKG_CONFIG")
    kept = {name: value for name, value in os.environ.items() if not name.startswith(left_out)}
    return kept | {
        "CARGO_TARGET_DIR": str(place / "target" / "cargo"),
        "GOCACHE": str(top / "target" / "go" / "cache"),
        "GOPROXY": "off",
        "PYTHONDONTWRITEBYTECODE": "1",
    }


def fault(step: Step, place: Path, surroundings: dict[str, str]) -> Optional[str]:
    """Does one step in the copy; what is wrong with it."""
    part = step.part
    if part.mark == "file":
        file = place / part.given
        file.parent.mkdir(parents=True, exist_ok=True)
        file.write_text(part.text, encoding="utf-8")
        return None
    with subprocess.Popen(
        ["bash", "-euo", "pipefail", "-c", part.text],
        cwd=place,
        env=surroundings,
        stdin=subprocess.DEVNULL,
        stdout=subprocess.PIPE,
        stderr=subprocess.PIPE,
        text=True,
        start_new_session=True,
    ) as done:
        try:
            printed, told = done.communicate(timeout=SECONDS)
        except subprocess.TimeoutExpired:
            os.killpg(done.pid, signal.SIGKILL)
            return f"{part.place}: not done after {SECONDS} s"
    if done.returncode != 0:
        return f"{part.place}: ended with status {done.returncode}\n{printed}{told}"
    if step.answer is None or printed == step.answer or step.only_end and f"\n{printed}".endswith("\n" + step.answer):
        return None
    differs = difflib.unified_diff(step.answer.splitlines(), printed.splitlines(), "the page says", "it prints", lineterm="")
    return "\n".join([f"{part.place}: prints something else", *differs])


def main() -> int:
    try:
        todo = plan(TOP)
    except Fault as wrong:
        print(f"guide: {wrong}")
        return 1
    for name in NEEDED:
        if not (TOP / "target" / name).exists():
            print(f"guide: target/{name} is not there, and nothing is proved here: make programs library makes what is needed")
            return 1
    wrong = False
    with tempfile.TemporaryDirectory() as folder:
        place = Path(folder) / "kullneyra"
        copy(TOP, place)
        surroundings = environment(TOP, place)
        for step in todo:
            if step.part.mark == "not run":
                print(f"guide: {step.part.place}: not run, {step.part.given}")
            elif told := fault(step, place, surroundings):
                print(f"guide: {told}")
                wrong = True
    return 1 if wrong else 0


if __name__ == "__main__":
    sys.exit(main())
