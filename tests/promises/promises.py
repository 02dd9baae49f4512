#!/usr/bin/env python3
"""What docs/PROMISES.md names: definitions, theorems, functions, must-fail edits and files, each where it says.

What stands between two `, behind the first heading, is one of

    crate                 the crate of the names behind it
    File.name             declared in specs/File.antt or proofs/File.antt of that crate; File alone, and File.Record.field
    name, Record.field    the same, of the file that was named last; a name behind an edit is another edit of its crate
    crate::module::name   a function, a type or a module in the crate's src
    crate/name            an edit, in the crate's must-fail
    a path                a file or a folder of the repository, or of crates/
    requires              the word of the language

A crate and a file hold to the end of their item or paragraph. Where none is named, the crate is the one that the section gives
in the words "Names without a crate are those of". Every edit has to be named in an item "Attacked by". Prints what is wrong, one
line for each fault, and ends with exit status 1 if there is any.
"""

import re
import sys
from dataclasses import dataclass, field
from pathlib import Path
from typing import Iterator, Optional

TOP = Path(__file__).resolve().parents[2]
PROMISES = Path("docs/PROMISES.md")

QUOTED = re.compile(r"`([^`]+)`")
SECTION = re.compile(r"^## (.*)$", re.MULTILINE)
OWN_CRATE = re.compile(r"Names without a crate are those of\s+`(\w+)`")
LANGUAGE = {"requires"}
ITEM = re.compile(r"^(?=\s*- )", re.MULTILINE)
ATTACKED = "- Attacked by:"

# A declaration: at the beginning of a line, and within a module; a field of a record, and constructors of a type.
DECLARED = re.compile(r"(?:(?:pub|abbrev|unfoldable|axiom) )*(?:(record|data|module) )?([^\s:({]+)")
IN_MODULE = re.compile(r"\s+(?:(?:abbrev|unfoldable) )?pub (?:(?:record|data) )?([^\s:({]+)")
WITHIN = re.compile(r"  (?:pub )?([^\s:({][^:({]*?) :(?: |$)")
COMMENT = re.compile(r"//[^\n]*")


@dataclass
class Names:
    """What a file of definitions or proofs declares, and the fields of each record and the constructors of each type."""

    own: set[str] = field(default_factory=set)
    within: dict[str, set[str]] = field(default_factory=dict)

    def read(self, text: str) -> None:
        kind, name = None, ""
        for line in text.splitlines():
            if line[:1].strip() and not line.startswith(("--", "use ", "pub use ")):
                kind, name = DECLARED.match(line).groups()
                self.own.add(name)
            elif kind == "module" and (found := IN_MODULE.match(line)):
                self.own.add(found[1])
            elif kind in ("record", "data") and (found := WITHIN.match(line)):
                self.within.setdefault(name, set()).update(found[1].split())

    def has(self, path: list[str]) -> bool:
        if len(path) == 1:
            return path[0] in self.own or any(path[0] in names for names in self.within.values())
        return len(path) == 2 and path[1] in self.within.get(path[0], ())


class Repository:
    def __init__(self, top: Path):
        self.top = top
        self.crates = {path.name for path in (top / "crates").iterdir() if path.is_dir()}
        self.edits = {f"{path.parts[-3]}/{path.stem}" for path in (top / "crates").glob("*/must-fail/*.edit")}
        self.files: dict[tuple[str, str], Optional[Names]] = {}

    def names(self, crate: str, file: str) -> Optional[Names]:
        """What the crate's file of this name declares, in specs/ and in proofs/; None if there is none."""
        if (crate, file) not in self.files:
            paths = [self.top / "crates" / crate / part / f"{file}.antt" for part in ("specs", "proofs")]
            texts = [path.read_text(encoding="utf-8") for path in paths if path.is_file()]
            names = Names()
            for text in texts:
                names.read(text)
            self.files[crate, file] = names if texts else None
        return self.files[crate, file]

    def has_item(self, crate: str, modules: list[str], name: str) -> bool:
        """Whether the crate's code has a function, a type, a trait, a constant or a module of this name there, or a type that method."""
        owner = modules[-1] if modules and modules[-1][:1].isupper() else None
        if owner:
            modules = modules[:-1]
        source = self.top / "crates" / crate / "src"
        paths = [source / f"{'/'.join(modules)}.rt"] if modules else [source / "lib.rt", source / "main.rt"]
        declared = re.compile(rf"\b(?:fn|struct|enum|trait|const|mod)\s+{re.escape(name)}\b")
        for path in paths:
            if path.is_file():
                text = COMMENT.sub("", path.read_text(encoding="utf-8"))
                parts = re.findall(rf"^(?:impl|pub trait|trait)\b[^{{]*\b{owner}\b[^{{]*\{{.*?^\}}", text, re.M | re.S) if owner else [text]
                if any(declared.search(part) for part in parts):
                    return True
        return False


@dataclass
class Reader:
    """Reads the names of one item or paragraph, one after the other."""

    repository: Repository
    crate: Optional[str]  # of the names to come
    file: Optional[str] = None  # the one that was named last
    edits: Optional[str] = None  # the crate of the edit, if one was named last

    def fault(self, text: str) -> Optional[str]:
        """What is wrong with a name."""
        if text in LANGUAGE:
            return None
        if text in self.repository.crates:
            self.crate, self.file, self.edits = text, None, None
            return None
        if "::" in text:
            crate, *modules, name = text.split("::")
            return None if self.repository.has_item(crate, modules, name) else "is not in the crate's src"
        if "/" in text:
            return self.path_fault(text)
        if re.search(r"\s", text):
            return "is not understood"
        return self.name_fault(text)

    def path_fault(self, text: str) -> Optional[str]:
        crate, _, name = text.partition("/")
        if crate in self.repository.crates and "/" not in name:
            self.edits = crate
            return None if text in self.repository.edits else "is no edit"
        top = self.repository.top
        return None if (top / text).exists() or (top / "crates" / text).exists() else "is no path"

    def name_fault(self, text: str) -> Optional[str]:
        if self.edits and "." not in text:
            return None if f"{self.edits}/{text}" in self.repository.edits else f"is no edit of {self.edits}"
        self.edits = None
        if self.crate is None:
            return "stands behind no crate"
        names = self.repository.names(self.crate, self.file) if self.file else None
        if names is not None and names.has(text.split(".")):
            return None
        file, *path = text.split(".")
        names = self.repository.names(self.crate, file)
        if names is None:
            return f"is not in {self.file} of {self.crate}" if self.file else f"is in no file of {self.crate}"
        self.file = file
        return None if not path or names.has(path) else f"is not in {file} of {self.crate}"


def parts(section: str) -> Iterator[tuple[bool, str]]:
    """The items of a section's lists and its paragraphs; whether it is an item that names edits."""
    for block in re.split(r"\n\s*\n", section):
        for part in ITEM.split(block):
            yield part.lstrip().startswith(ATTACKED), part


def faults(top: Path) -> Iterator[str]:
    repository = Repository(top)
    text = (top / PROMISES).read_text(encoding="utf-8")
    attacked: set[str] = set()
    _, *sections = SECTION.split(text)
    for title, section in zip(sections[::2], sections[1::2]):
        own = OWN_CRATE.search(section)
        for attacks, part in parts(section):
            reader = Reader(repository, own[1] if own else None)
            for name in QUOTED.findall(part):
                wrong = reader.fault(name)
                if wrong:
                    yield f"{title}: `{name}` {wrong}"
                elif reader.edits and attacks:
                    attacked.add(f"{reader.edits}/{name.rpartition('/')[2]}")
    for edit in sorted(repository.edits - attacked):
        yield f"no item names the edit {edit}"


def main() -> int:
    found = list(faults(TOP))
    for line in found:
        print(f"promises: {line}")
    return 1 if found else 0


if __name__ == "__main__":
    sys.exit(main())
