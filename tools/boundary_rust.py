"""The boundary in Rust, as rustfmt has it: the C functions on slices, the functions with Rust's own types, and the sides of
the comparison that only pass on."""

from typing import Callable, Dict, List, Optional

from boundary_source import NUMBERS_WRITTEN, WRITTEN, Boundary, Call, Record, camel
from boundary_text import WIDTH, wrapped

SAFETY = "// SAFETY: each pointer comes with the length of its own slice, and a slice that is written overlaps no other."
MOST_ARGUMENTS = 7


def doc(text: str, indent: str = "", mark: str = "///") -> str:
    return "\n".join(wrapped(text, f"{indent}{mark} ", f"{indent}{mark} "))


def listed(indent: str, head: str, parts: List[str], tail: str) -> str:
    """On one line where that is short enough, else behind the `=` that the head ends in, else one part to a line."""
    line = f"{indent}{head}{', '.join(parts)}{tail}"
    if len(line) <= WIDTH:
        return line
    name, equals, value = head.partition(" = ")
    later = f"{indent}    {value}{', '.join(parts)}{tail}"
    if equals and len(later) <= WIDTH:
        return f"{indent}{name} =\n{later}"
    return "\n".join([f"{indent}{head}".rstrip(), *(f"{indent}    {part}," for part in parts), indent + tail.lstrip()])


def function(indent: str, head: str, takes: List[str], gives: str, body: List[str], told: str = "") -> str:
    lines = [told] if told else []
    if len(takes) > MOST_ARGUMENTS:
        lines.append(f"{indent}#[allow(clippy::too_many_arguments)]")
    return "\n".join([*lines, listed(indent, f"{head}(", takes, f") -> {gives} {{"), *body, f"{indent}}}", ""])


# The C functions on slices.


def extern(call: Call) -> str:
    parts = []
    for one in call.all:
        pointer = {"&": "*const ", "&mut ": "*mut "}.get(one.lent, "")
        parts += [f"{one.name}: {pointer}{one.type}"] + ([f"{one.name}_len: usize"] if one.lent else [])
    return listed("        ", f"pub fn kullneyra_{call.name}(", parts, ") -> u32;")


def raw_function(boundary: Boundary, call: Call) -> str:
    pointer = {"&": "as_ptr", "&mut ": "as_mut_ptr"}
    parts = []
    for one in call.all:
        parts += [f"{one.name}.{pointer[one.lent]}()", f"{one.name}.len()"] if one.lent else [one.name]
    body = [f"    unsafe {{ c::kullneyra_{call.name}({', '.join(parts)}) }}"]
    if len(body[0]) > WIDTH:
        body = ["    unsafe {", listed("        ", f"c::kullneyra_{call.name}(", parts, ")"), "    }"]
    record = boundary.answer(call)
    words = "One result word." if call.result else "There are no result words."
    if record:
        words = f"Result words: {', '.join(record.fields)}."
    told = doc(f"[`crate::{boundary.rust_path(call)}`] on words. {words}")
    return function("", f"pub fn {call.name}", [str(one) for one in call.all], "u32", [f"    {SAFETY}", *body], told)


def raw(boundary: Boundary) -> str:
    told = doc(
        f"The C functions on slices, {WRITTEN}: the answer is 0 or a refusal's number, and result words go to a lent buffer."
        " Its length is looked at before all else (another one is 7), and beside a refusal the words are left as they are."
        " Most callers want the functions of the crate itself.",
        mark="//!",
    )
    externs = ["mod c {", '    extern "C" {', *(extern(call) for call in boundary.calls), "    }", "}", ""]
    return "\n".join([told, "", *externs, *(raw_function(boundary, call) for call in boundary.calls)])


# The refusals and the constants.


def sentence(told: str) -> str:
    return f"{told[0].upper()}{told[1:]}."


def numbers(boundary: Boundary) -> str:
    refusals = [one for one in boundary.refusals.values() if not one.program]
    variants, constants = [], []
    for one in refusals:
        variants += [doc(f"{one.number}: {boundary.text(one.doc, 'rust')}.", "    "), f"    {one.name},"]
    for one in boundary.constants.values():
        constants.append(doc(sentence(boundary.text(one.doc, "rust"))))
        constants.append(f"pub const {one.name}: {one.rust} = {one.number:_};")
    lines = [
        doc(f"The version, the refusals and the constants, {NUMBERS_WRITTEN}.", mark="//!"),
        "",
        "/// The version of this crate; [`version`](crate::version) tells that of the library that is linked.",
        f'pub const VERSION: &str = "{".".join(map(str, boundary.version))}";',
        *constants,
        "",
        "/// Why a call is refused: the table of the specification, section 2.",
        "#[derive(Clone, Copy, Debug, PartialEq, Eq, Hash)]",
        "#[non_exhaustive]",
        "pub enum Refusal {",
        *variants,
        "    /// A number that this crate has no name for: the library is newer than the crate.",
        "    Other(u32),",
        "}",
        "",
        "/// The refusals that have a name.",
        f"const NAMED: [Refusal; {len(refusals)}] = [",
        *(f"    Refusal::{one.name}," for one in refusals),
        "];",
        "",
        "impl Refusal {",
        "    /// The refusal of a number that the library answered.",
        "    pub(crate) fn of(number: u32) -> Self {",
        "        NAMED.into_iter().find(|named| named.number() == number).unwrap_or(Refusal::Other(number))",
        "    }",
        "",
        "    pub(crate) fn number_and_words(self) -> (u32, &'static str) {",
        "        match self {",
        *(f'            Refusal::{one.name} => ({one.number}, "{one.words}"),' for one in refusals),
        '            Refusal::Other(number) => (number, "a number newer than this crate"),',
        "        }",
        "    }",
        "}",
        "",
    ]
    return "\n".join(lines)


# The functions with Rust's own types.


def record_type(boundary: Boundary, record: Record) -> str:
    """Names for the words of a record."""
    names = [record.rust_names.get(name, name) for name in record.fields]
    is_flag = [name in record.flags for name in record.fields]
    fields = []
    for (name, told), own in zip(record.fields.items(), names):
        flag = record.flags.get(name)
        told = flag or told
        fields += [doc(sentence(told), "    "), f"    pub {own}: {'bool' if flag else record.type},"]
    taken = [f"{own}: {own} == 1" if flag else own for own, flag in zip(names, is_flag)]
    given = [f"{record.type}::from({own})" if flag else own for own, flag in zip(names, is_flag)]
    quoted = [f'"{own}"' for own in names]
    array = f"[{record.type}; Self::WORDS]"
    lines = [
        doc(boundary.text(record.doc, "rust")),
        "#[derive(Clone, Copy, Debug, Default, PartialEq, Eq)]",
        "#[non_exhaustive]",
        f"pub struct {record.rust} {{",
        *fields,
        "}",
        "",
        f"impl {record.rust} {{",
        "    /// How many words it has.",
        f"    pub const WORDS: usize = {len(names)};",
        "",
        "    /// The names of its words, in their order.",
        listed("    ", "pub const NAMES: [&'static str; Self::WORDS] = [", quoted, "];"),
        "",
        "    /// These words by name.",
        f"    pub fn from_words(words: {array}) -> Self {{",
        listed("        ", "let [", names, "] = words;"),
        listed("        ", f"{record.rust} {{ ", taken, " }"),
        "    }",
        "",
        "    /// Its words.",
        f"    pub fn words(self) -> {array} {{",
        listed("        ", f"let {record.rust} {{ ", names, " } = self;"),
        listed("        ", "[", given, "]"),
        "    }",
        "}",
        "",
    ]
    return "\n".join(lines)


def typed_function(boundary: Boundary, call: Call) -> str:
    """Answers a record, a word or nothing; a call that moves a record is its method."""
    moved, record = boundary.moved(call), boundary.answer(call)
    takes, gives, body = [], [], []
    for group, parameters in boundary.grouped(call.parameters, "rust"):
        if moved and parameters[0].name == moved.moved:
            takes.append("&mut self")
            gives.append(f"&mut {moved.moved}")
        else:
            takes.append(group.declared if group else str(parameters[0]))
            gives += group.gives if group else [parameters[0].name]
    outer = "    " if moved else ""
    indent = f"{outer}    "
    own = f"[{', '.join(f'self.{name}' for name in moved.fields)}]" if moved else ""
    answer, value, words = "()", "()", ""
    if call.result:
        answer, value, words = call.result.type, "result[0]", "[0]"
        gives.append("&mut result")
    if record and record.rust:
        answer, value, words = record.rust, f"{record.rust}::from_words(result)", f"[0; {record.rust}::WORDS]"
    if moved:
        body.append(f"{indent}let mut {moved.moved} = {own};")
    if words:
        body.append(f"{indent}let mut result = {words};")
    more = bool(moved or words)
    body.append(listed(indent, f"answer(raw::{call.name}(", gives, "))?;" if more else "))"))
    if moved:
        body.append(f"{indent}{own} = {moved.moved};")
    if more:
        body.append(f"{indent}Ok({value})")
    told = doc(f"{boundary.text(call.doc, 'rust')} {call.rust}".strip(), outer)
    return function(outer, f"pub fn {call.name}", takes, f"Result<{answer}, Refusal>", body, told)


def typed(boundary: Boundary) -> str:
    calls = [call for call in boundary.calls if not call.hand]
    parts = [f"//! The calls and their answers with Rust's own types, {WRITTEN}.\n", "use super::*;\n"]
    parts += [record_type(boundary, record) for record in boundary.records.values() if record.rust]
    parts += [typed_function(boundary, call) for call in calls if not boundary.moved(call)]
    for record in boundary.records.values():
        if record.moved:
            methods = [typed_function(boundary, call) for call in calls if boundary.moved(call) is record]
            parts.append(f"impl {camel(record.name)} {{\n" + "\n".join(methods) + "}\n")
    return "\n".join(parts)


# The sides of the comparison. A side makes the body of a method from its parameters as they are declared there, and from
# what stands for each parameter of the call.

Body = Callable[[Boundary, Call, List[str], Dict[str, str]], Optional[List[str]]]


def by_plain(boundary: Boundary, call: Call, names: List[str], _given: Dict[str, str]) -> List[str]:
    if not boundary.is_of_numbers(call):
        return [listed("        ", f"plain::{call.name}(", names, ")")]
    numbers, head, made = names[:-1], "told_one(result, || ", f"reference::{call.name}("
    line = f"        {head}{made}{', '.join(numbers)}))"
    return [line] if len(line) <= WIDTH else [f"        {head}{{", listed("            ", made, numbers, ")"), "        })"]


def by_raw(_boundary: Boundary, call: Call, _names: List[str], given: Dict[str, str]) -> List[str]:
    return [listed("        ", f"raw::{call.name}(", list(given.values()), ")")]


def by_types(boundary: Boundary, call: Call, names: List[str], given: Dict[str, str]) -> List[str]:
    if call.hand:
        return [listed("        ", f"by_hand::{call.name}(", names, ")")]
    moved, record, gives = boundary.moved(call), boundary.answer(call), []
    for group, parameters in boundary.grouped(call.parameters, "rust"):
        parts = [given[one.name] for one in parameters]
        if not moved or parameters[0].name != moved.moved:
            gives.append(group.made % tuple(parts) if group else parts[0])
    before, after, path = [], [], f"kullneyra::{call.name}"
    if moved:
        fields = ", ".join(f"{name}: {moved.moved}[{place}]" for place, name in enumerate(moved.fields))
        words = ", ".join(f"words.{name}" for name in moved.fields)
        before.append(f"        let mut words = kullneyra::{camel(moved.name)} {{ {fields} }};")
        after.append(f"        {moved.moved}.copy_from_slice(&[{words}]);")
        path = f"words.{call.name}"
    if not call.result:
        after.append("        number_of(answer)")
    elif record and record.rust:
        after.append(f"        written(answer.map(kullneyra::{record.rust}::words), {given['result']})")
    else:
        after.append(f"        written(answer.map(|word| [word]), {given['result']})")
    return [*before, listed("        ", f"let answer = {path}(", gives, ");"), *after]


def by_nothing(_boundary: Boundary, _call: Call, _names: List[str], _given: Dict[str, str]) -> None:
    return None


def method(boundary: Boundary, call: Call, body: Body) -> str:
    takes, given = [], []
    for group, parameters in boundary.grouped(call.all, "compare"):
        takes.append(group.declared if group else str(parameters[0]))
        given += group.gives if group else [parameters[0].name]
    names = [one.split(":")[0] for one in takes]
    lines = body(boundary, call, names, dict(zip((one.name for one in call.all), given)))
    if lines is None:
        takes, lines = ["_:" + one.split(":", 1)[1] for one in takes], ["        WRONG_LENGTH"]
    return function("    ", f"fn {call.name}", ["&self", *takes], "u32", lines)


def number_call(place: int, call: Call) -> str:
    """The row of a call of numbers."""
    largest = [f"{one.type}::MAX" + (" as u64" if one.type != "u64" else "") for one in call.parameters]
    names = [f'("{one.name}", {most})' for one, most in zip(call.parameters, largest)]
    takes = [f"given[{at}]" + (f" as {one.type}" if one.type != "u64" else "") for at, one in enumerate(call.parameters)]
    head, made = "make: |side, given, result| ", f"side.{call.name}("
    parts = [f"place: {place}", f"given: &[{', '.join(names)}]", f"{head}{made}{', '.join([*takes, 'result'])})"]
    line = f"    NumberCall {{ {', '.join(parts)} }},"
    if len(line) <= WIDTH:
        return line
    last = f"        {parts[2]},"
    if len(last) > WIDTH:
        last = "\n".join([f"        {head}{{", listed("            ", made, [*takes, "result"], ")"), "        },"])
    given = listed("        ", "given: &[", names, "],")
    return "\n".join(["    NumberCall {", f"        {parts[0]},", given, last, "    },"])


def compare(boundary: Boundary) -> str:
    calls = boundary.calls
    words = [boundary.result_words(call) for call in calls]
    numbers = [(place, call) for place, call in enumerate(calls) if boundary.is_of_numbers(call)]
    others = [(place, call) for place, call in enumerate(calls) if not boundary.is_of_numbers(call)]

    def methods(body: Body) -> str:
        return "\n".join(method(boundary, call, body) for call in calls)

    def side(told: str, name: str, body: Body) -> List[str]:
        return [f"/// {told}", f"pub struct {name};", "", f"impl Side for {name} {{", f"{methods(body)}}}", ""]

    lines = [
        doc(f"The calls by name, those of numbers, and the sides that only pass on, {WRITTEN}.", mark="//!"),
        "",
        "use crate::case::{Call, Mark};",
        "use crate::plain::{self, told_one, WRONG_LENGTH};",
        "use crate::sides::{by_hand, number_of, written, Buffers, Renewal};",
        "use kullneyra::{raw, Schedule, Settings};",
        "",
        "impl Call {",
        f"    pub const CALLS: usize = {len(calls)};",
        "    pub const NAMES: [&'static str; Self::CALLS] = [",
        *(f'        "{call.name}",' for call in calls),
        "    ];",
        "    /// What each call may answer: 0, and its refusals.",
        "    pub const ANSWERS: [&'static [u32]; Self::CALLS] = [",
        *(f"        &{[0, *call.refusals]}," for call in calls),
        "    ];",
        "",
        "    pub fn place(&self) -> usize {",
        "        match self {",
        "            Call::Numbers { which, .. } => NUMBER_CALLS[*which].place,",
        *(f"            Call::{camel(call.name)} {{ .. }} => {place}," for place, call in others),
        "        }",
        "    }",
        "",
        "    /// The right length of the result buffer; 0 for a call that has none.",
        "    pub fn result_words(&self) -> usize {",
        f"        {words}[self.place()]",
        "    }",
        "}",
        "",
        "/// A call that is given numbers alone and answers one.",
        "pub struct NumberCall {",
        "    /// Its place among all calls.",
        "    pub place: usize,",
        "    /// What it is given: the name of each number, and the largest of its type.",
        "    pub given: &'static [(&'static str, u64)],",
        "    /// Makes it on a side, with these numbers and these result words.",
        "    pub make: fn(&dyn Side, &[u64], &mut [u64]) -> u32,",
        "}",
        "",
        f"pub static NUMBER_CALLS: [NumberCall; {len(numbers)}] = [",
        *(number_call(place, call) for place, call in numbers),
        "];",
        "",
        "/// The calls as the C header has them. Where a side has none of its own, it is the plain one.",
        "pub trait Side {",
        f"{methods(by_plain)}}}",
        "",
        *side("The proved library by its C functions.", "Proved", by_raw),
        *side("The proved library by its Rust types. The result buffer has the right length.", "Typed", by_types),
        *side("Writes nothing, as beside a refusal: the buffers as they were beforehand.", "Untouched", by_nothing),
    ]
    return "\n".join(lines)
