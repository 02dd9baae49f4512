#!/usr/bin/env python3
"""The documents as a reader meets them: no line is longer than MOST_CHARACTERS, README has at most MOST_LINES lines, each link within
the repository leads to a file and, behind a #, to a heading, and a block behind a line <!-- from: FILE --> stands so in that file.
Prints what is wrong, one line for each fault, and ends with exit status 1 if there is any.
"""

import re
import sys
from pathlib import Path
from typing import Iterator

TOP = Path(__file__).resolve().parents[2]
DOCUMENTS = ("*.md", "docs/*.md", "docs/changes/*.md")
FRONT_PAGE = Path("README.md")
MOST_CHARACTERS = 160
MOST_LINES = 120

LINK = re.compile(r"\]\(([^)\s]+)\)")
HEADING = re.compile(r"#+ (.*)")
QUOTED = re.compile(r"^<!-- from: (.+) -->\n+```.*\n((?:(?!```).*\n)*)```$", re.MULTILINE)


def prose(text: str) -> Iterator[tuple[int, str]]:
    """The lines outside fenced blocks, with their numbers."""
    fenced = False
    for number, line in enumerate(text.splitlines(), 1):
        if line.startswith("```"):
            fenced = not fenced
        elif not fenced:
            yield number, line


def anchors(text: str) -> set[str]:
    """What links to the headings of a document name: small letters, hyphens for spaces, no other marks."""
    found = (HEADING.fullmatch(line) for _, line in prose(text))
    return {re.sub(r"[^\w\- ]", "", heading[1].lower()).replace(" ", "-") for heading in found if heading}


def link_fault(top: Path, document: Path, link: str) -> str:
    """What is wrong with a link; nothing if it leads somewhere, or out of the repository."""
    path, _, anchor = link.partition("#")
    if ":" in path:
        return ""
    file = (top / document).parent / path if path else top / document
    if not file.exists():
        return "leads to no file"
    if anchor and (not file.is_file() or anchor not in anchors(file.read_text(encoding="utf-8"))):
        return "leads to no heading"
    return ""


def faults(top: Path) -> Iterator[str]:
    for document in sorted(path.relative_to(top) for pattern in DOCUMENTS for path in top.glob(pattern)):
        text = (top / document).read_text(encoding="utf-8")
        for number, line in enumerate(text.splitlines(), 1):
            if len(line) > MOST_CHARACTERS:
                yield f"{document}:{number}: {len(line)} characters; {MOST_CHARACTERS} is the most"
        if document == FRONT_PAGE and len(text.splitlines()) > MOST_LINES:
            yield f"{document}: {len(text.splitlines())} lines; {MOST_LINES} is the most"
        for number, line in prose(text):
            for link in LINK.findall(line):
                if wrong := link_fault(top, document, link):
                    yield f"{document}:{number}: {link} {wrong}"
        quoted = QUOTED.findall(text)
        for file, block in quoted:
            if not (top / file).is_file() or f"\n{block}" not in "\n" + (top / file).read_text(encoding="utf-8"):
                yield f"{document}: {file} does not have what is quoted from it"
        if len(quoted) != text.count("<!-- from:"):
            yield f"{document}: a quotation is no block, or does not end"


def main() -> int:
    found = list(faults(TOP))
    for line in found:
        print(f"documents: {line}")
    return 1 if found else 0


if __name__ == "__main__":
    sys.exit(main())
