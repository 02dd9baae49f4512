"""What the boundary is made from: the exported functions, the counts of a marking, the refusals, the constants, the version, and
tools/boundary.toml beside them."""

import re
import tomllib
from dataclasses import dataclass, field
from fnmatch import fnmatch
from keyword import iskeyword
from pathlib import Path
from typing import Dict, Iterator, List, NamedTuple, Optional, Tuple

EXPORTS = "crates/ffi_*/src/lib.rt"
COUNTS = "crates/machine/src/lib.rt"
REFUSALS = "crates/refusal/src/lib.rt"
VERSION = "VERSION"
TABLE = "tools/boundary.toml"
WRITTEN = "written by tools/boundary.py from the exported functions"
NUMBERS_WRITTEN = "written by tools/boundary.py from the constants of the crates"


class Fault(Exception):
    """Something that is not understood, with its place."""


class Parameter(NamedTuple):
    """A number, or a slice that a call reads or writes."""

    name: str
    type: str  # u8, u32, u64 or usize: of the number, or of an element
    lent: str = ""  # "&" or "&mut "

    def __str__(self) -> str:
        return f"{self.name}: {self.lent}[{self.type}]" if self.lent else f"{self.name}: {self.type}"


@dataclass
class Record:
    """Words by name: what a call answers, or what is lent to it."""

    name: str
    doc: str
    fields: Dict[str, str]
    words: str = ""
    rust: str = ""
    go: str = ""
    rust_names: Dict[str, str] = field(default_factory=dict)
    go_names: Dict[str, str] = field(default_factory=dict)
    flags: Dict[str, str] = field(default_factory=dict)
    counts: Dict[str, str] = field(default_factory=dict)
    begins: str = ""  # the record whose fields stand before its own
    of: str = ""  # the constant of the crates that is its number of fields
    moved: str = ""  # the parameter that is this record
    each: str = ""  # the parameter that has one for each worker
    type: str = ""


@dataclass
class Call:
    """An exported function, and its row."""

    name: str
    parameters: List[Parameter]
    result: Optional[Parameter]
    place: str
    doc: str = ""
    answer: str = ""
    words: str = ""
    c: str = ""
    rust: str = ""
    verb: str = ""
    hand: bool = False
    refusals: List[int] = field(default_factory=list)

    @property
    def all(self) -> List[Parameter]:
        return self.parameters + ([self.result] if self.result else [])


@dataclass
class Refusal:
    """A cause that a call is refused for, and its row."""

    name: str
    number: int
    c: str = ""
    go: str = ""
    words: str = ""
    doc: str = ""
    program: bool = False  # only the program answers it


@dataclass
class Constant:
    """A number of the crates that callers need, and its row."""

    name: str
    number: int
    of: str = ""
    rust: str = ""  # its type there
    c: str = "%s"
    doc: str = ""


class Group(NamedTuple):
    """Parameters that stand together: as what they are taken, what it gives for each, and how it is made of them."""

    takes: List[str]
    declared: str
    gives: List[str]
    made: str


SIGNATURE = re.compile(r'#\[unsafe\(no_mangle\)\]\s*pub extern "C" fn (\w+)\s*\(([^()]*)\)\s*->\s*([^\s{]+)')
EXPORT = re.compile(r"\b(?:no_mangle|extern|export_name)\b")
# In Rattle's clauses `result` is what a function answers, so the crates call the result words otherwise.
RESULT = {"res": "result"}
PARAMETER = re.compile(r"(\w+): (?:(&(?:mut )?)\[(u8|u32|u64)\]|(u32|u64|usize))")
COUNT = re.compile(r"pub (\w+): u64,")
NUMBER_OF = re.compile(r"impl From<Refusal> for u8 \{.*?\s*match refusal \{(.*?)\n        \}\n    \}\n\}", re.DOTALL)
CAUSE = re.compile(r"Refusal::(\w+) => (\d+),")
CONSTANT = r"^(?:pub )?const {}: (u8|u16|u32|u64|usize) = (\d+);"
BITS = {"u8": 8, "u16": 16, "u32": 32, "u64": 64, "usize": 32}


def bare(source: str) -> str:
    """The text with spaces for its comments."""
    return re.sub(r"//[^\n]*", lambda found: " " * len(found[0]), source)


def line_of(source: str, at: int) -> int:
    return source.count("\n", 0, at) + 1


def parameters_of(text: str) -> Iterator[Tuple[int, str, Optional[Parameter]]]:
    """Each parameter of a list: where it stands, its text, and what it is, if that is understood."""
    at = 0
    for part in text.split(","):
        word = part.strip()
        if word:
            found = PARAMETER.fullmatch(word)
            known = Parameter(RESULT.get(found[1], found[1]), found[3] or found[4], found[2] or "") if found else None
            yield at + part.index(word), word, known
        at += len(part) + 1


def exported(sources: Dict[str, str]) -> Dict[str, Call]:
    """The exported functions of these files."""
    calls: Dict[str, Call] = {}
    for path, source in sources.items():
        for call in exported_in(path, bare(source)):
            if call.name in calls:
                raise Fault(f"{call.place}: kullneyra_{call.name} is there twice")
            calls[call.name] = call
    return calls


def exported_in(path: str, source: str) -> Iterator[Call]:
    """The exported functions of a file. Whatever looks like an export and is no signature of the known form is a fault."""
    spans = []
    for found in SIGNATURE.finditer(source):
        symbol, listed, answer = found.groups()
        place = f"{path}:{line_of(source, found.start(1))}"
        name = symbol.removeprefix("kullneyra_")
        if name == symbol:
            raise Fault(f"{place}: {symbol} does not begin with kullneyra_")
        parameters = []
        for at, text, parameter in parameters_of(listed):
            if parameter is None:
                raise Fault(f"{path}:{line_of(source, found.start(2) + at)}: {symbol}: not understood: {text}")
            parameters.append(parameter)
        result = parameters.pop() if parameters and parameters[-1].name == "result" else None
        if answer != "u32":
            raise Fault(f"{place}: {symbol} answers {answer} and no u32")
        if result and (result.lent != "&mut " or result.type not in ("u32", "u64")):
            raise Fault(f"{place}: {symbol}: result words are &mut [u32] or &mut [u64]")
        if any(one.name == "result" for one in parameters):
            raise Fault(f"{place}: {symbol}: result words are the last parameter")
        spans.append(found.span())
        yield Call(name, parameters, result, place)
    for found in EXPORT.finditer(source):
        if not any(start <= found.start() < end for start, end in spans):
            raise Fault(f"{path}:{line_of(source, found.start())}: a signature that is not understood")


def counts_in(source: str) -> List[str]:
    """The fields of `struct Counts`."""
    source = bare(source)
    found = re.search(r"pub struct Counts \{([^}]*)\}", source)
    if found is None:
        raise Fault(f"{COUNTS}: no struct Counts")
    names = []
    for number, line in enumerate(found[1].split("\n"), line_of(source, found.start(1))):
        if line.strip():
            one = COUNT.fullmatch(line.strip())
            if one is None:
                raise Fault(f"{COUNTS}:{number}: not understood: {line.strip()}")
            names.append(one[1])
    return names


def refusals_in(source: str) -> Dict[str, int]:
    """The causes of the numbers of refusals, and the number of each."""
    source = bare(source)
    found = NUMBER_OF.search(source)
    if found is None:
        raise Fault(f"{REFUSALS}: no number of each Refusal")
    numbers: Dict[str, int] = {}
    for number, line in enumerate(found[1].split("\n"), line_of(source, found.start(1))):
        if line.strip():
            one = CAUSE.fullmatch(line.strip())
            if one is None:
                raise Fault(f"{REFUSALS}:{number}: not understood: {line.strip()}")
            numbers[one[1]] = int(one[2])
    if sorted(numbers.values()) != list(range(1, len(numbers) + 1)):
        raise Fault(f"{REFUSALS}: the numbers are not 1 to {len(numbers)}")
    return dict(sorted(numbers.items(), key=lambda one: one[1]))


def version_in(source: str) -> Tuple[int, int, int]:
    """The version: major, minor and patch."""
    found = re.fullmatch(r"(0|[1-9]\d*)\.(0|[1-9]\d*)\.(0|[1-9]\d*)\n", source)
    if found is None:
        raise Fault(f"{VERSION}: not understood: {source.strip()}")
    return int(found[1]), int(found[2]), int(found[3])


def constant_in(sources: Dict[str, str], name: str, where: str) -> int:
    """The number of a constant of the crates: crate::NAME in its lib.rt, crate::module::NAME in its module.rt."""
    crate, *modules, constant = name.split("::")
    path = f"crates/{crate}/src/{'/'.join(modules) or 'lib'}.rt"
    found = re.search(CONSTANT.format(re.escape(constant)), bare(sources.get(path, "")), re.MULTILINE)
    if found is None:
        raise Fault(f"{TABLE}: [{where}]: {path} has no constant {constant} that is a number")
    return int(found[2])


# What a row must have, by its kind.
NEEDED = {
    Record: ("doc", "fields"),
    Call: ("doc", "refusals"),
    Refusal: ("c", "go", "words"),
    Constant: ("of", "rust", "doc"),
}


def row_of(kind, where: str, row: dict, **given):
    """A row of the table, each of whose keys is a field of its kind."""
    for key in row:
        if key in given or key in ("type", "name", "number") or key not in kind.__dataclass_fields__:
            raise Fault(f"{TABLE}: [{where}]: {key} is not understood")
    for key in NEEDED[kind]:
        if not row.get(key):
            raise Fault(f"{TABLE}: [{where}] has no {key}")
    return kind(**given, **row)


def group_of(language: str, row: dict) -> Group:
    if set(row) - {"made"} != {"takes", "as", "gives"}:
        raise Fault(f"{TABLE}: [groups.{language}]: a row has takes, as, gives, and perhaps made")
    takes, gives = [text for _, text, _ in parameters_of(row["takes"])], row["gives"].split(", ")
    if len(takes) != len(gives):
        raise Fault(f"{TABLE}: [groups.{language}]: {row['as']} takes {len(takes)} and gives {len(gives)}")
    return Group(takes, row["as"], gives, row.get("made", ""))


class Boundary:
    """The calls in the order of the table, the records, and a text as each language has it."""

    def __init__(self, top: Path):
        def text(path: str) -> str:
            return (top / path).read_text(encoding="utf-8")

        sources = {str(path.relative_to(top)): text(path) for path in sorted(top.glob("crates/*/src/**/*.rt"))}
        self.exported = exported({path: source for path, source in sources.items() if fnmatch(path, EXPORTS)})
        for path, source in sources.items():
            found = EXPORT.search(bare(source))
            if found and not fnmatch(path, EXPORTS):
                raise Fault(f"{path}:{line_of(source, found.start())}: only {EXPORTS} is linked")
        try:
            table = tomllib.loads(text(TABLE))
        except tomllib.TOMLDecodeError as wrong:
            raise Fault(f"{TABLE}: {wrong}") from wrong
        for key in sorted(set(table) ^ {"names", "refusals", "constants", "groups", "records", "calls"}):
            raise Fault(f"{TABLE}: {key} is {'not understood' if key in table else 'not there'}")
        self.version = version_in(text(VERSION))
        self.names, groups = table["names"], table["groups"]
        self.refusals = self.refusals_of(refusals_in(text(REFUSALS)), table["refusals"])
        self.constants = {name: self.constant_of(sources, name, row) for name, row in table["constants"].items()}
        for name, words in self.names.items():
            if set(words) != {"c", "rust", "go", "python"}:
                raise Fault(f"{TABLE}: [names]: {name} is said in c, rust, go and python")
        if set(groups) != {"rust", "go", "python", "compare"}:
            raise Fault(f"{TABLE}: [groups]: rust, go, python and compare")
        self.groups = {language: [group_of(language, row) for row in rows] for language, rows in groups.items()}
        rows = table["records"].items()
        self.records = {name: row_of(Record, f"records.{name}", row, name=name) for name, row in rows}
        self.calls = [self.call_of(name, row) for name, row in table["calls"].items()]
        for name, call in self.exported.items():
            if name not in table["calls"]:
                raise Fault(f"{call.place}: kullneyra_{name} has no row in {TABLE}")
        self.take_counts(counts_in(text(COUNTS)))
        for record in self.records.values():
            if record.begins:
                self.begin_as(record)
        for record in self.records.values():
            record.type = self.type_of(record)
            where, words = f"records.{record.name}", len(record.fields)
            if record.of and constant_in(sources, record.of, where) != words:
                raise Fault(f"{TABLE}: [{where}] has {words} fields, and {record.of} is another number")

    def refusals_of(self, numbers: Dict[str, int], rows: dict) -> Dict[str, Refusal]:
        """The refusals in the order of their numbers."""
        for name in rows:
            if name not in numbers:
                raise Fault(f"{TABLE}: [refusals.{name}]: {REFUSALS} has no cause {name}")
        for name in numbers:
            if name not in rows:
                raise Fault(f"{TABLE}: {REFUSALS} has the cause {name}, which has no row in [refusals]")
        found = {}
        for name, number in numbers.items():
            found[name] = row_of(Refusal, f"refusals.{name}", rows[name], name=name, number=number)
            found[name].doc = found[name].doc or found[name].words
        return found

    def constant_of(self, sources: Dict[str, str], name: str, row: dict) -> Constant:
        where = f"constants.{name}"
        constant = row_of(Constant, where, row, name=name, number=0)
        constant.number = constant_in(sources, constant.of, where)
        if constant.rust not in BITS:
            raise Fault(f"{TABLE}: [{where}]: {constant.rust} is no type of a constant")
        if constant.number >> BITS[constant.rust]:
            raise Fault(f"{TABLE}: [{where}]: {constant.number} is no {constant.rust}")
        if constant.c.count("%s") != 1:
            raise Fault(f"{TABLE}: [{where}]: %s stands for the number in c, once")
        return constant

    def call_of(self, name: str, row: dict) -> Call:
        if name not in self.exported:
            raise Fault(f"{TABLE}: [calls.{name}]: {EXPORTS} has no kullneyra_{name}")
        found = self.exported[name]
        given = {"name": name, "parameters": found.parameters, "result": found.result, "place": found.place}
        call = row_of(Call, f"calls.{name}", row, **given)
        if bool(call.answer) + bool(call.words) != bool(call.result):
            raise Fault(f"{TABLE}: [calls.{name}]: a call with result words has one of answer and words, and no other call")
        if call.answer and call.answer not in self.records:
            raise Fault(f"{TABLE}: [calls.{name}]: no record {call.answer}")
        self.check_refusals(call)
        return call

    def check_refusals(self, call: Call) -> None:
        numbers = call.refusals
        whole = isinstance(numbers, list) and all(type(one) is int and one > 0 for one in numbers)
        if not whole or numbers != sorted(set(numbers)):
            raise Fault(f"{TABLE}: [calls.{call.name}]: refusals are numbers above 0, each once, upwards")
        for one in numbers:
            if one > len(self.refusals):
                raise Fault(f"{TABLE}: [calls.{call.name}]: {REFUSALS} has no refusal {one}")
        wrong_length = self.refusals["Buffer"].number
        if any(one.lent == "&mut " for one in call.all) and wrong_length not in numbers:
            raise Fault(f"{TABLE}: [calls.{call.name}]: a call that is lent a buffer refuses with {wrong_length}, too")

    def take_counts(self, counts: List[str]) -> None:
        """The counts of a marking are fields of its record, in their order."""
        for record in self.records.values():
            if not record.counts:
                continue
            for name in counts:
                if name not in record.counts:
                    raise Fault(f"{TABLE}: [records.{record.name}.counts] does not say what the count {name} is")
            for name in record.counts:
                if name not in counts:
                    raise Fault(f"{TABLE}: [records.{record.name}.counts]: {COUNTS} has no count {name}")
            record.counts = {name: record.counts[name] for name in counts}
            record.fields = {**record.fields, **record.counts}
            return
        raise Fault(f"{TABLE}: no record has the counts")

    def begin_as(self, record: Record) -> None:
        """The fields of another record stand before its own."""
        first = self.records.get(record.begins)
        if first is None or first.begins:
            raise Fault(f"{TABLE}: [records.{record.name}]: no record {record.begins} to begin with")
        for name in record.fields:
            if name in first.fields:
                raise Fault(f"{TABLE}: [records.{record.name}]: {record.begins} has a field {name}, too")
        record.fields = {**first.fields, **record.fields}
        record.flags = {**first.flags, **record.flags}

    def type_of(self, record: Record) -> str:
        """The type of a record's words, by the parameters that hold it."""
        held = {call.result.type for call in self.answered_by(record)}
        held |= {one.type for call in self.calls for one in call.parameters if one.name in (record.moved, record.each)}
        if len(held) != 1:
            raise Fault(f"{TABLE}: [records.{record.name}]: its words have {len(held)} types")
        return held.pop()

    def answered_by(self, record: Record) -> List[Call]:
        return [call for call in self.calls if call.answer == record.name]

    def answer(self, call: Call) -> Optional[Record]:
        return self.records.get(call.answer)

    def result_words(self, call: Call) -> int:
        return len(self.records[call.answer].fields) if call.answer else int(call.result is not None)

    def is_of_numbers(self, call: Call) -> bool:
        """Whether a call is given numbers alone and answers one word of 64 bits, so that `compare` can make it by the table."""
        numbers = bool(call.parameters) and not any(one.lent for one in call.parameters)
        return numbers and self.result_words(call) == 1 and call.result.type == "u64"

    def moved(self, call: Call) -> Optional[Record]:
        """The record that a call is lent and moves on."""
        names = {one.name for one in call.parameters}
        return next((record for record in self.records.values() if record.moved in names), None)

    def grouped(self, parameters: List[Parameter], language: str) -> List[Tuple[Optional[Group], List[Parameter]]]:
        """The parameters, those of a group together."""
        found, at = [], 0
        while at < len(parameters):
            texts = [str(one) for one in parameters[at:]]
            group = next((one for one in self.groups[language] if texts[: len(one.takes)] == one.takes), None)
            end = at + (len(group.takes) if group else 1)
            found.append((group, parameters[at:end]))
            at = end
        return found

    def rust_path(self, call: Call) -> str:
        owner = self.moved(call)
        return f"{camel(owner.name)}::{call.name}" if owner else call.name

    def text(self, doc: str, language: str, plain: bool = False) -> str:
        """A text with the names of a language; plain for a call's C name without kullneyra_."""

        def name(found) -> str:
            word = found[1]
            if word in self.exported:
                rust = self.rust_path(self.exported[word])
                python = ".".join(map(unreserved, rust.split("::")))
                c = word if plain else f"kullneyra_{word}"
                return {"c": c, "rust": f"[`{rust}`]", "go": camel(word), "python": f"`{python}`"}[language]
            if word in self.records:
                record = self.records[word]
                own = {
                    "c": f"struct kullneyra_{word}",
                    "rust": record.rust and f"[`{record.rust}`]",
                    "go": record.go,
                    "python": record.rust and f"`{record.rust}`",
                }[language]
                if not own:
                    raise Fault(f"{TABLE}: {{{word}}} has no name in {language}")
                return own
            if word in self.refusals:
                one = self.refusals[word]
                return {"c": f"KULLNEYRA_{one.c}", "rust": f"[`Refusal::{word}`]", "go": one.go, "python": f"`Cause.{one.c}`"}[language]
            if word in self.constants:
                return {"c": f"KULLNEYRA_{word}", "rust": f"[`{word}`]", "go": camel(word), "python": f"`{word}`"}[language]
            if word in self.names:
                return self.names[word][language]
            raise Fault(f"{TABLE}: {{{word}}} is no call, no record, no refusal, no constant and no name")

        return " ".join(re.sub(r"\{(\w+)\}", name, doc).split())


def unreserved(name: str) -> str:
    """The name in Python, which has some of them for itself."""
    return f"{name}_" if iskeyword(name) else name


def camel(name: str) -> str:
    return "".join(word.capitalize() for word in name.split("_"))
