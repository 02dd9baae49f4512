#!/usr/bin/env python3
"""Dead wood of crates/: names that a file imports and does not use, definitions and lemmas that nothing cites, arrows of
crates.txt that no file of the crate needs; files of specs/ and contracts that cite proofs/; and more functions with many
parameters than there may be: they are dear to prove, and hard to call rightly.

Files are read as text, name by name. Where a local name is spelled like an imported one, the text does not tell which of
the two is meant, and the import counts as used. What a must-fail edit writes into a file counts as written there, so that
the edit is refused for what it says and not for a missing name. Prints what is wrong, one line for each fault, and ends
with exit status 1 if there is any.
"""

import re
import sys
from collections import defaultdict
from dataclasses import dataclass, field
from pathlib import Path
from typing import Iterable, Iterator, NamedTuple, Optional

TOP = Path(__file__).resolve().parents[2]

# A theorem that a document names is promised to its reader, whether a proof cites it or not.
DOCUMENTS = ("README.md", "docs/*.md")

TOKEN = re.compile(
    r"""(?P<skip>\s+|--[^\n]*|\{-.*?-\}|"(?:\\.|[^"\\])*")|(?P<name>«[^»]*»|[^\s(){}.;,@"«»⌜⌝⟦⟧]+)|(?P<mark>.)""", re.DOTALL
)
MARKS = {"pub", "abbrev", "unfoldable", "opaque", "axiom"}
IMPORT = re.compile(r"^(pub )?use ([^\s{;]+?)\.\{([^}]*)\}|^use ([^\s{;]+) as (\S+)", re.MULTILINE)
MODULE = re.compile(r"Rattle\.(\w+)\.((?:specs|proofs)\b.*)")
QUOTED = re.compile(r"`([^`\n]+)`")
EDITED = re.compile(r"^file: (\S+)$", re.MULTILINE)
WRITTEN = re.compile(r"^new:(.*)$", re.MULTILINE)

# What Rattle and a reader ask for is public in the proof of a function.
ASKED = ("Proof.antt", "Invariants.antt", "Answers.antt")

# Code: what is no code in it, the clauses of its contracts and ghost items, the lemmas that a tactic is given, and what it brings in.
NO_CODE = re.compile(r"""//[^\n]*|b?'(?:\\.|[^\\'])'|b?"(?:\\[\s\S]|[^\\"])*\"""")
CLAUSE = re.compile(r"\b(?:(?:requires|ensures)\*?(?:\s+\w+)?|ghost\s+\w+\s*[:=])\s*\{")
TACTIC = re.compile(r"#!?\[tactic\(([^\]]*)\)\]")
GHOST = re.compile(r"^ghost (use [^;]*);", re.MULTILINE)
BROUGHT = re.compile(r"^use ([\w:]+?)(?:::\{([^{}]*)\}|(?: as (\w+))?);", re.MULTILINE)

# A function's name and its parameters, of which WIDE are many; so many functions may have as many.
FUNCTION = re.compile(r"\bfn (\w+)(?:<[^>]*>)?\(([^)]*)\)")
WIDE, MOST_WIDE = 8, 15


class Token(NamedTuple):
    text: str
    line: int
    column: int
    of: str  # what stands before the dot that it follows; "" for a field, as in `x .name`
    dotted: bool


def tokens(source: str) -> list[Token]:
    """The names and marks of antt, without comments and quoted texts."""
    found: list[Token] = []
    line, begins, last = 1, 0, None
    for part in TOKEN.finditer(source):
        if not part["skip"]:
            # `x .name` and `m.name`; behind the dot of `λ x. name` stands a space
            dotted = part["name"] is not None and last is not None and last[0] == "." and last.end() == part.start()
            of = ""
            if dotted and len(found) > 1 and source[last.start() - 1].strip():
                of = (found[-2].of + "." if found[-2].of else "") + found[-2].text
            found.append(Token(part[0], line, part.start() - begins, of, dotted))
            last = part
        if "\n" in part[0]:
            line += part[0].count("\n")
            begins = part.start() + part[0].rindex("\n") + 1
    return found


@dataclass
class Names:
    """The names that a text writes, and those that it writes behind a module's name."""

    bare: set[str] = field(default_factory=set)
    paths: set[tuple[str, str]] = field(default_factory=set)

    def add(self, part: list[Token]) -> "Names":
        for i, token in enumerate(part):
            before = part[i - 1].text if i else ""
            behind = part[i + 1].text if i + 1 < len(part) else ""
            if token.dotted:
                if token.of:
                    self.paths.add((token.of, token.text))
            elif behind == "=" and before in ("{", ";") or before == "let" and behind in ("=", ":"):
                pass  # a field's label, an argument's, or a name that is bound here
            elif behind == ":" and (before in MARKS or i == 0 or part[i - 1].line != token.line):
                pass  # a name that is declared here: a field, or a helper
            else:
                self.bare.add(token.text)
                self.bare.add(token.text.strip("◌"))
        return self

    def has(self, name: str) -> bool:
        """A name is written as it is, or, an operator, part by part; `do` writes the two that it stands for."""
        if name in self.bare or (name in ("◌>>=◌", "◌>>◌") and "do" in self.bare):
            return True
        if name.startswith("«"):
            return False
        parts = [part for part in name.split("◌") if part]
        return parts != [name] and all(part in self.bare for part in parts)


@dataclass
class Import:
    module: str  # as written
    name: str  # "" where the module itself is brought in
    local: str
    line: int
    passed_on: bool = False


@dataclass
class Item:
    """A declaration with its clauses; a fixity line or the head of a section declares nothing."""

    kind: str  # its first word behind the marks
    names: list[str]
    public: bool
    line: int
    tokens: list[Token] = field(default_factory=list)


def imports(source: str) -> Iterator[Import]:
    for found in IMPORT.finditer(source):
        line = source.count("\n", 0, found.start()) + 1
        if found[4]:
            yield Import(found[4], "", found[5], line)
            continue
        for entry in filter(None, (part.strip() for part in found[3].split(","))):
            name, _, local = entry.partition(" as ")
            path, _, last = name.rpartition(".")
            yield Import(f"{found[2]}.{path}" if path else found[2], last, local or last, line, bool(found[1]))


def lines(part: list[Token]) -> Iterator[list[Token]]:
    """The tokens line by line."""
    begin = 0
    for i in range(1, len(part) + 1):
        if i == len(part) or part[i].line != part[begin].line:
            yield part[begin:i]
            begin = i


def declared(line: list[Token]) -> Optional[Item]:
    """What begins with a line; None where it goes on with a declaration."""
    texts = [token.text for token in line]
    head = 0
    while head < len(texts) and texts[head] in MARKS:
        head += 1
    public, rest = "pub" in texts[:head], texts[head:]
    if rest[0] in ("data", "record"):
        return Item(rest[0], rest[1:2], public, line[0].line)
    if rest[0] in ("use", "mod", "module", "mutual", "open", "infix", "infixl", "infixr"):
        return Item(rest[0], [], public, line[0].line)
    if rest[1:2] == ["{"] and "}" in rest:  # levels
        rest = rest[:1] + rest[rest.index("}") + 1 :]
    return Item("definition", rest[:1], public, line[0].line) if rest[1:2] == [":"] else None


def items(part: list[Token]) -> list[Item]:
    """The declarations of a file, those of its sections too; helpers under `where` are part of theirs."""
    found: list[Item] = []
    levels, opened = [0], False  # the columns of the sections; whether the line before opens one
    for line in lines(part):
        column, texts = line[0].column, [token.text for token in line]
        if opened:
            levels.append(column)
        while column < levels[-1]:
            levels.pop()
        new = declared(line) if column == levels[-1] and texts[0] not in (")", "}", "]") else None
        if new is not None:
            found.append(new)
        elif found[-1].kind == "data" and ":" in texts:  # constructors
            found[-1].names += texts[: texts.index(":")]
        found[-1].tokens += line
        opened = found[-1].kind in ("module", "mutual") and texts[-1] in ("where", "mutual")
    return found


@dataclass
class File:
    path: Path  # below crates/
    imports: list[Import]
    written: Names  # by the file itself
    edited: Names  # by must-fail edits
    items: list[Item] = field(default_factory=list)
    code: set[str] = field(default_factory=set)  # first names of paths in code

    @property
    def crate(self) -> str:
        return self.path.parts[0]

    @property
    def module(self) -> str:
        """The crate, then the folders and the file."""
        return ".".join(self.path.with_suffix("").parts)

    def writes(self, name: str) -> bool:
        return self.written.has(name) or self.edited.has(name)


def named(module: str) -> str:
    """A module of the repository as `File.module` has it, another as it is written."""
    found = MODULE.fullmatch(module)
    return f"{found[1]}.{found[2]}" if found else module


def read_antt(path: Path, source: str, edited: Names) -> File:
    found = items(tokens(source))
    written = Names()
    for item in found:
        if item.kind != "use":
            written.add(item.tokens)
    return File(path, list(imports(source)), written, edited, found)


def clauses(code: str) -> Iterator[str]:
    """What stands between the braces of each `requires`, `ensures` and ghost item."""
    for found in CLAUSE.finditer(code):
        depth, at = 1, found.end()
        while depth:
            depth += {"{": 1, "}": -1}.get(code[at], 0)
            at += 1
        yield code[found.end() : at - 1]


def named_items(brought) -> Iterator[tuple[str, str]]:
    """The path and the local name of each thing that a `use` of code brings in."""
    if brought[2] is None:
        yield brought[1], brought[3] or brought[1].rpartition("::")[2]
    for part in filter(None, (part.strip() for part in (brought[2] or "").split(","))):
        name, _, local = part.partition(" as ")
        path = brought[1] if name == "self" else f"{brought[1]}::{name}"
        yield path, local or path.rpartition("::")[2]


def without_literals(source: str) -> str:
    """Code without comments and literals, each line at its number."""
    return NO_CODE.sub(lambda part: " " + "\n" * part[0].count("\n"), source)


def read_code(path: Path, source: str, edited: Names) -> File:
    code = without_literals(source)
    written = Names()
    for clause in [*clauses(code), *TACTIC.findall(code)]:
        written.add(tokens(clause))
    brought = []
    for found in GHOST.finditer(code):
        line = code.count("\n", 0, found.start()) + 1
        brought += [Import(one.module, one.name, one.local, line) for one in imports(found[1])]
    bare = re.sub(r"(?m)^(?:ghost )?use [^;]*;", "", code)
    words = set(re.findall(r"\w+", bare)) | edited.bare
    for found in BROUGHT.finditer(code):
        line = code.count("\n", 0, found.start()) + 1
        for of, local in named_items(found):
            if local not in words:
                brought.append(Import(of, local, local, line))
    paths = set(re.findall(r"(?<![\w:])(\w+)::", code))
    return File(path, brought, written, edited, code=paths)


def edits(crate: Path) -> dict[str, Names]:
    """What the must-fail edits of a crate write into its files."""
    found: dict[str, Names] = defaultdict(Names)
    for edit in sorted(crate.glob("must-fail/*.edit")):
        text = edit.read_text(encoding="utf-8")
        for path in EDITED.findall(text):
            for line in WRITTEN.findall(text):
                found[path].add(tokens(line))
                found[path].bare |= set(re.findall(r"\w+", line))
    return found


def files(top: Path) -> list[File]:
    found = []
    for crate in sorted((top / "crates").iterdir()):
        new = edits(crate)
        for part in ("src", "specs", "proofs"):
            for path in sorted((crate / part).rglob("*")):
                if path.suffix in (".antt", ".rt"):
                    read = read_antt if path.suffix == ".antt" else read_code
                    inside = str(path.relative_to(crate))
                    found.append(read(path.relative_to(top / "crates"), path.read_text(encoding="utf-8"), new.get(inside, Names())))
    return found


def unused(found: Iterable[File]) -> Iterator[str]:
    """Imports that their file does not use."""
    for file in found:
        for one in file.imports:
            if one.name and not one.passed_on and not file.writes(one.local):
                yield f"crates/{file.path}:{one.line}: {one.local} is imported and not used"
            if not one.name and not any(of.split(".")[0] == one.local for of, _ in file.written.paths):
                yield f"crates/{file.path}:{one.line}: {one.local} is brought in and not used"


def promised(top: Path) -> set[str]:
    """The names that documents quote."""
    names = set()
    for pattern in DOCUMENTS:
        for path in top.glob(pattern):
            for quoted in QUOTED.findall(path.read_text(encoding="utf-8")):
                names |= {token.text for token in tokens(quoted)} | set(quoted.split("::"))
    return names


def is_drawing(file: File, item: Item) -> bool:
    """A theorem of specs/ on a case: nothing stands before its `=`, and it is computed."""
    texts = [token.text for token in item.tokens]
    ends = [i for i in range(len(texts) - 1) if texts[i : i + 2] == [*item.names, "="]]
    return file.path.parts[1] == "specs" and bool(ends) and not {"refl", "omega"}.isdisjoint(texts[ends[-1] :])


def is_read(file: File, item: Item, known: set[str]) -> bool:
    """Whether a declaration is there for somebody else than another declaration: the toolchain asks for what is `pub` in the
    proof of a function, and a reader for drawings and for what the documents name."""
    asked = item.public and file.path.name in ASKED
    return item.kind in ("module", "open") or asked or is_drawing(file, item) or not known.isdisjoint(item.names)


def uncited(top: Path, found: list[File]) -> Iterator[str]:
    """Declarations that no contract, drawing or theorem for a reader rests on."""
    known, live = promised(top), set()
    modules = {file.module: file for file in found}
    pending: list[tuple[File, Names]] = []

    def reach(file: File, item: Item) -> None:
        if id(item) not in live:
            live.add(id(item))
            pending.append((file, Names().add(item.tokens)))

    def cite(module: str, name: str) -> None:
        if module in modules:
            for item in modules[module].items:
                if name in item.names:
                    reach(modules[module], item)

    for file in found:
        pending += [(file, file.edited)] if file.items else [(file, file.written)]
        for item in file.items:
            if is_read(file, item, known):
                reach(file, item)
    while pending:
        file, names = pending.pop()
        short = {one.local: one.module for one in file.imports if not one.name}
        for item in file.items:
            if any(names.has(name) for name in item.names):
                reach(file, item)
        for one in file.imports:
            if one.name and (one.passed_on or names.has(one.local)):
                cite(named(one.module), one.name)
        for of, name in names.paths:
            head, dot, rest = of.partition(".")
            cite(named(short.get(head, head) + dot + rest), name)
    for file in found:
        for item in file.items:
            if item.names and id(item) not in live:
                yield f"crates/{file.path}:{item.line}: nothing cites {item.names[0]}"


def arrows(top: Path, found: list[File]) -> Iterator[str]:
    """Arrows of crates.txt to crates that nothing in the crate names."""
    needs: dict[str, set[str]] = defaultdict(set)
    for file in found:
        needs[file.crate] |= file.code
        for one in file.imports:
            module = MODULE.fullmatch(one.module)
            needs[file.crate].add(module[1] if module else one.module.partition("::")[0])
        needs[file.crate] |= {match[1] for of, _ in file.written.paths if (match := MODULE.match(of))}
    for number, line in enumerate((top / "crates.txt").read_text(encoding="utf-8").splitlines(), 1):
        head, colon, below = line.partition("#")[0].partition(":")
        name = head.split()[0] if colon else ""  # without its kind, as `staticlib`
        for crate in below.split() if colon else ():
            if crate not in needs[name]:
                yield f"crates.txt:{number}: no file of {name} needs {crate}"


def upwards(found: list[File]) -> Iterator[str]:
    """Definitions and contracts that a reader cannot read without proofs."""
    crates = {file.crate for file in found}
    for file in found:
        if file.path.parts[1] != "proofs":
            cited = {(one.line, one.module): MODULE.fullmatch(one.module) for one in file.imports}
            for (line, module), ours in cited.items():
                if ours and ours[1] in crates and ours[2].startswith("proofs"):
                    yield f"crates/{file.path}:{line}: what is promised cites {module}"


def wide(top: Path) -> Iterator[str]:
    """Functions with many parameters, where there are more of them than there may be."""
    found = []
    for path in sorted(top.glob("crates/*/src/*.rt")):
        code = without_literals(path.read_text(encoding="utf-8"))
        for function in FUNCTION.finditer(code):
            if function[2].count(":") >= WIDE:
                line = code.count("\n", 0, function.start()) + 1
                found.append(f"{path.relative_to(top)}:{line}: {function[1]} has {function[2].count(':')} parameters")
    if len(found) > MOST_WIDE:
        yield from found


def faults(top: Path) -> Iterator[str]:
    found = files(top)
    yield from unused(found)
    yield from uncited(top, found)
    yield from arrows(top, found)
    yield from upwards(found)
    yield from wide(top)


def main() -> int:
    found = list(faults(TOP))
    for line in found:
        print(f"crates: {line}")
    return 1 if found else 0


if __name__ == "__main__":
    sys.exit(main())
