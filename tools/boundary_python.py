"""The boundary in Python: the calls over ctypes, whose buffers are looked at in runtime/python/kullneyra/_lent.py."""

from typing import List

from boundary_source import NUMBERS_WRITTEN, WRITTEN, Boundary, Call, Record, camel, unreserved
from boundary_text import WIDTH, filled, wrapped

LENT = {"": "int", "&": "Read", "&mut ": "Write"}
CODES = {"u32": "I", "u64": "Q"}  # of array


def docstring(text: str, indent: str) -> str:
    """A text in quotes, with its last line's end on the last line where it has room."""
    lines = wrapped(text, f'{indent}"""', indent)
    lines[-1] += '"""' if len(lines[-1]) + 3 <= WIDTH else f'\n{indent}"""'
    return "\n".join(lines)


def told(line: str, text: str) -> List[str]:
    """A line with a comment, which stands above it where both are too long."""
    if not text:
        return [line]
    whole = f"{line}  # {text}"
    indent = line[: len(line) - len(line.lstrip())]
    return [whole] if len(whole) <= WIDTH else [*wrapped(text, f"{indent}# ", f"{indent}# "), line]


def exported(names: List[str]) -> str:
    return filled("__all__ = [", [f'"{name}"' for name in names], "]", "    ")


# The refusals and the constants.


def numbers(boundary: Boundary) -> str:
    refusals = boundary.refusals.values()
    only = " and ".join(one.c for one in refusals if one.program)
    lines = [
        docstring(f"The version, the refusals and the constants, {NUMBERS_WRITTEN}.", ""),
        "",
        "from enum import IntEnum",
        "",
        exported(["VERSION", "Cause", *boundary.constants]),
        "",
        f'VERSION = "{".".join(map(str, boundary.version))}"',
        "",
        *wrapped(
            "Limits, and what the calls write. Objects, starts, workers, batch and cutoff are 1 at least; references and"
            " sizes may be 0.",
            "# ",
            "# ",
        ),
    ]
    for one in boundary.constants.values():
        lines += told(f"{one.name} = {one.number}", boundary.text(one.doc, "python"))
    lines += ["", "", "class Cause(IntEnum):"]
    lines.append(docstring(f"Why a call is refused: the numbers of docs/SPECIFICATION.md. The program alone answers {only}.", "    "))
    lines.append("")
    for one in refusals:
        lines += told(f"    {one.c} = {one.number}", boundary.text(one.doc, "python"))
    lines += ["", "", "REASONS = {", *(f'    Cause.{one.c}: "{one.words}",' for one in refusals), "}", ""]
    return "\n".join(lines)


# The calls.


def signature(boundary: Boundary, call: Call) -> str:
    """The C function: what it takes, and its result words."""
    parts = [f'"{call.name}"', f'"{", ".join(map(str, call.parameters))}"']
    if call.result:
        parts += [f'"{call.result.type}"', str(boundary.result_words(call))]
    line = f"_{call.name} = Call({', '.join(parts)})"
    if len(line) <= WIDTH:
        return line
    takes = filled('    "', list(map(str, call.parameters)), '",', '    " ').replace(",\n", ',"\n')
    return "\n".join([f"_{call.name} = Call(", f"    {parts[0]},", takes, *(f"    {part}," for part in parts[2:]), ")"])


def record_type(boundary: Boundary, record: Record) -> str:
    """A class for the words of a record."""
    names = [record.rust_names.get(name, name) for name in record.fields]
    lines = ["@dataclass(frozen=True)", f"class {record.rust}:", docstring(boundary.text(record.doc, "python"), "    "), ""]
    for (name, text), own in zip(record.fields.items(), names):
        flag = record.flags.get(name)
        lines += told(f"    {own}: {'bool' if flag else 'int'}", flag or text)
    values = [f"{own} != 0" if name in record.flags else own for name, own in zip(record.fields, names)]
    lines += [
        "",
        "    @classmethod",
        f"    def of(cls, words: Sequence[int]) -> {record.rust}:",
        '        """These words by name."""',
        f"        {', '.join(names)} = words",
        f"        return cls({', '.join(values)})",
        "",
    ]
    return "\n".join(lines)


def function(boundary: Boundary, call: Call, indent: str = "") -> str:
    """Answers a record, a word or nothing, or raises Refusal; a call that moves a record is its method."""
    moved, record = boundary.moved(call), boundary.answer(call)
    takes, gives = (["self"] if moved else []), []
    for group, parameters in boundary.grouped(call.parameters, "python"):
        name = unreserved(parameters[0].name)
        if moved and parameters[0].name == moved.moved:
            gives.append("words")
        elif group:
            takes.append(group.declared)
            gives += group.gives
        else:
            takes.append(f"{name}: {LENT[parameters[0].lent]}")
            gives.append(name)
    answer, value = "None", ""
    if record and record.rust:
        answer, value = record.rust, f"{record.rust}.of(%s)"
    elif call.result:
        answer, value = "int", "%s[0]"
    inner = f"{indent}    "
    made = f"_{call.name}({', '.join(gives)})"
    body = [f"{inner}return {value % made}" if value else f"{inner}{made}"]
    if moved:
        fields = ", ".join(f"self.{name}" for name in moved.fields)
        body = [f'{inner}words = array("{CODES[moved.type]}", ({fields}))', f"{inner}answer = {made}" if value else f"{inner}{made}", f"{inner}{fields} = words"]
        body += [f"{inner}return {value % 'answer'}"] if value else []
    body = [line for one in body for line in folded(one, inner)]
    head = filled(f"{indent}def {unreserved(call.name)}(", takes, f") -> {answer}:", f"{indent}    ")
    return "\n".join([head, docstring(boundary.text(call.doc, "python"), inner), *body, ""])


def folded(line: str, indent: str) -> List[str]:
    """A call on lines of its own where it is too long for one."""
    if len(line) <= WIDTH:
        return [line]
    head, _, rest = line.partition("(")
    if rest.startswith("_"):  # a record of a call
        call, _, rest = rest.partition("(")
        inner = filled(f"{indent}    {call}(", rest[: rest.rindex("))")].split(", "), ")", f"{indent}        ")
        return [f"{head}(", inner, f"{indent})"]
    return [f"{head}(", filled(f"{indent}    ", rest[: rest.rindex(")")].split(", "), "", f"{indent}    "), f"{indent})"]


def python(boundary: Boundary) -> str:
    records = [record for record in boundary.records.values() if record.rust]
    moved = [record for record in boundary.records.values() if record.moved]
    calls = [call for call in boundary.calls if not call.hand and not boundary.moved(call)]
    names = [record.rust for record in records] + [camel(record.name) for record in moved]
    lines = [
        docstring(f"The calls and their answers, {WRITTEN}.", ""),
        "",
        "from __future__ import annotations",
        "",
        "from array import array",
        "from dataclasses import dataclass",
        "from typing import Sequence",
        "",
        "from ._lent import Call, Read, Write",
        "from ._types import Buffers, Graph, Renewed, Settings",
        "",
        exported(names + [unreserved(call.name) for call in calls]),
        "",
        *(signature(boundary, call) for call in boundary.calls),
        "",
        "",
        *("\n".join([record_type(boundary, record), ""]) for record in records),
    ]
    for record in moved:
        fields = [f"    {name}: int = 0" for name in record.fields]
        methods = [function(boundary, call, "    ") for call in boundary.calls if boundary.moved(call) is record]
        lines += ["@dataclass", f"class {camel(record.name)}:", docstring(boundary.text(record.doc, "python"), "    "), "", *fields, "", *methods, ""]
    lines.append("\n\n".join(function(boundary, call) for call in calls))
    return "\n".join(lines)
