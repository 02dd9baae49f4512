"""The boundary in Go, as gofmt has it."""

from typing import List

import boundary_c
from boundary_source import Boundary, Call, Record, camel
from boundary_text import filled, wrapped

TYPES = {"u8": "byte", "u32": "uint32", "u64": "uint64", "usize": "int"}
C_TYPES = {kind: f"C.{name}" for kind, name in boundary_c.TYPES.items()}


def doc(text: str) -> str:
    return "\n".join(wrapped(text, "// ", "// "))


def local(name: str) -> str:
    return camel(name)[0].lower() + camel(name)[1:]


def by_value(boundary: Boundary, call: Call) -> str:
    """In C: the call with all that it answers by value."""
    moved, record = boundary.moved(call), boundary.answer(call)
    struct = f"struct {call.name}_answer"
    fields, lines, gives = ["uint32_t number;"], [f"    {struct} a;"], boundary_c.passed(call.parameters)
    if moved:
        gives = boundary_c.passed(call.parameters, moved, f"&a.{moved.moved}")
        fields.append(f"struct kullneyra_{moved.name} {moved.moved};")
        lines.append(f"    a.{moved.moved} = {moved.moved};")
    if call.result:
        gives.append("&a.answer")
        kind = f"struct kullneyra_{record.name}" if record else boundary_c.TYPES[call.result.type]
        fields.append(f"{kind} answer;")
    lines.append(filled(f"    a.number = kullneyra_{call.name}_into(", gives, ");"))
    head = filled(f"static {struct} {call.name}_of(", boundary_c.declared(call.parameters, moved, by=""), ") {")
    return "\n".join([f"{struct} {{ {' '.join(fields)} }};", head, *lines, "    return a;", "}", ""])


def slice_of(kind: str) -> str:
    lines = [
        f"func {kind}s(s []{TYPES[kind]}) (*{C_TYPES[kind]}, C.size_t) {{",
        "\tif len(s) == 0 {",
        "\t\treturn nil, 0",
        "\t}",
        f"\treturn (*{C_TYPES[kind]})(unsafe.Pointer(&s[0])), C.size_t(len(s))",
        "}",
        "",
    ]
    return "\n".join(lines)


def record_type(boundary: Boundary, record: Record) -> str:
    """A struct for a record, and how it is made of C's."""
    rows = []
    for name, told in record.fields.items():
        flag = record.flags.get(name)
        kind = "bool" if flag else TYPES[record.type]
        value = f"a.{name} != 0" if flag else f"{kind}(a.{name})"
        rows.append((record.go_names.get(name, camel(name)), kind, flag or told, value))
    width, kinds = (max(len(row[column]) for row in rows) for column in (0, 1))
    lines = [doc(f"{record.go}, of {boundary.text(record.doc, 'go')}"), f"type {record.go} struct {{"]
    lines += [f"\t{name.ljust(width)} {kind.ljust(kinds)} // {told}" for name, kind, told, _ in rows]
    lines += ["}", ""]
    if boundary.answered_by(record):
        lines += [f"func {local(record.go)}Of(a C.struct_kullneyra_{record.name}) {record.go} {{", f"\treturn {record.go}{{"]
        lines += [f"\t\t{f'{name}:'.ljust(width + 1)} {value}," for name, _, _, value in rows]
        lines += ["\t}", "}", ""]
    return "\n".join(lines)


def function(boundary: Boundary, call: Call) -> str:
    """Answers a record, a word or nothing, and an error; a call that moves a record is its method."""
    moved, record = boundary.moved(call), boundary.answer(call)
    takes: List[List[str]] = []
    receiver, lines, gives = "", [], []
    for group, parameters in boundary.grouped(call.parameters, "go"):
        names = [local(one.name) for one in parameters]
        if moved and parameters[0].name == moved.moved:
            receiver = f"(s *{camel(moved.name)}) "
            fields = [f"{name}: {C_TYPES[moved.type]}(s.{camel(name)})" for name in moved.fields]
            gives.append(f"C.struct_kullneyra_{moved.name}{{{', '.join(fields)}}}")
            continue
        kind = ("[]" if parameters[0].lent else "") + TYPES[parameters[0].type]
        if group:
            takes.append(group.declared.split(" "))
        elif takes and takes[-1][1] == kind:
            takes[-1][0] += f", {names[0]}"
        else:
            takes.append([names[0], kind])
        for one, name, given in zip(parameters, names, group.gives if group else names):
            if one.lent:
                lines.append(f"\t{name}At, {name}Len := {one.type}s({given})")
                gives += [f"{name}At", f"{name}Len"]
            else:
                gives.append(f"{C_TYPES[one.type]}({given})")
    if call.result or moved:
        lines.append(filled(f"\ta := C.{call.name}_of(", gives, ")", "\t\t"))
    else:
        lines.append(filled(f"\tnumber := C.kullneyra_{call.name}_into(", gives, ")", "\t\t"))
    if moved:
        own = ", ".join(f"s.{camel(name)}" for name in moved.fields)
        lines.append(f"\t{own} = " + ", ".join(f"{TYPES[moved.type]}(a.{moved.moved}.{name})" for name in moved.fields))
    error = f"refused(uint32({'a.' if call.result or moved else ''}number))"
    answer = value = ""
    if call.hand:
        answer, value = f"C.struct_kullneyra_{record.name}", "a.answer"
    elif record and record.go:
        answer, value = record.go, f"{local(record.go)}Of(a.answer)"
    elif call.result:
        answer = TYPES[call.result.type]
        value = f"{answer}(a.answer{f'.{next(iter(record.fields))}' if record else ''})"
    lines.append(f"\treturn {value}, {error}" if answer else f"\treturn {error}")
    name = local(call.name) if call.hand else camel(call.name)
    told = boundary.text(call.doc, "go")
    told = " ".join(word for word in (name, call.verb, told[0].lower() + told[1:]) if word)
    head = f"func {receiver}{name}({', '.join(' '.join(one) for one in takes)})"
    return "\n".join([doc(told), f"{head} {f'({answer}, error)' if answer else 'error'} {{", *lines, "}", ""])


def declared(rows: List[List[str]]) -> List[str]:
    """Constants as gofmt has them: names, types, numbers and comments under each other."""
    names, numbers = (max(len(row[column]) for row in rows) for column in (0, 1))
    return [f"\t{name.ljust(names)} {number.ljust(numbers)} // {told}" for name, number, told in rows]


def numbers(boundary: Boundary) -> str:
    """The refusals and the constants."""
    refusals = boundary.refusals.values()
    constants = [[camel(one.name), f"= {one.number}", boundary.text(one.doc, "go")] for one in boundary.constants.values()]
    width = max(len(one.go) for one in refusals) + 1
    lines = [
        "// Code generated by tools/boundary.py; DO NOT EDIT.",
        "",
        "package kullneyra",
        "",
        "// Version is the version of this package; LibraryVersion tells that of the library that is linked.",
        f'const Version = "{".".join(map(str, boundary.version))}"',
        "",
        "// Limits, and what the calls write. Objects, starts, workers, batch and cutoff are 1 at least; references and",
        "// sizes may be 0.",
        "const (",
        *declared(constants),
        ")",
        "",
        "// The numbers, as docs/SPECIFICATION.md has them. The program alone answers "
        + " and ".join(one.go for one in refusals if one.program)
        + ".",
        "const (",
        *declared([[one.go, f"Refusal = {one.number}", boundary.text(one.doc, "go")] for one in refusals]),
        ")",
        "",
        "var reasons = [...]string{",
        *(f'\t{f"{one.go}:".ljust(width)} "{one.words}",' for one in refusals),
        "}",
        "",
    ]
    return "\n".join(lines)


def go(boundary: Boundary) -> str:
    lines = [
        "// Code generated by tools/boundary.py; DO NOT EDIT.",
        "",
        "package kullneyra",
        "",
        "/*",
        "#include <kullneyra.h>",
        "",
        "// An answer by value: so nothing of it is lent, and nothing escapes to the heap.",
        "",
        "\n".join(by_value(boundary, call) for call in boundary.calls if call.result or boundary.moved(call)) + "*/",
        'import "C"',
        "",
        'import "unsafe"',
        "",
        "// A buffer of no elements may have any address, a null one too.",
        *(slice_of(kind) for kind in ("u8", "u32", "u64")),
        *(record_type(boundary, record) for record in boundary.records.values() if record.go),
        *(function(boundary, call) for call in boundary.calls),
    ]
    return "\n".join(lines)
