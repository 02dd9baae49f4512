"""The boundary in C: numbers, structs, lengths, prototypes, and the forms that give their answer in a struct."""

from typing import List, Optional

from boundary_source import Boundary, Call, Constant, Parameter, Record
from boundary_text import WIDTH, filled, wrapped

TYPES = {"u8": "uint8_t", "u32": "uint32_t", "u64": "uint64_t", "usize": "size_t"}


def comment(text: str) -> str:
    return "\n".join(wrapped(text, "/* ", " * ", " */")) + " */"


def declared(parameters: List[Parameter], moved: Optional[Record] = None, by: str = "*") -> List[str]:
    """Parameters; a record that is moved is a pointer to its struct, or the struct itself."""
    parts = []
    for one in parameters:
        if moved and one.name == moved.moved:
            parts.append(f"struct kullneyra_{moved.name} {by}{one.name}")
        elif one.lent:
            const = "const " if one.lent == "&" else ""
            parts += [f"{const}{TYPES[one.type]} *{one.name}", f"size_t {one.name}_len"]
        else:
            parts.append(f"{TYPES[one.type]} {one.name}")
    return parts


def passed(parameters: List[Parameter], moved: Optional[Record] = None, *instead: str) -> List[str]:
    """What is passed for them, something instead of a record that is moved."""
    parts: List[str] = []
    for one in parameters:
        if moved and one.name == moved.moved:
            parts += instead
        else:
            parts += [one.name, f"{one.name}_len"] if one.lent else [one.name]
    return parts


def number_of(constant: Constant) -> str:
    """The number of a constant, as a literal that has its type."""
    literal = str(constant.number)
    if constant.rust == "u64":
        literal = f"UINT64_C({literal})"
    elif constant.number >> 31:
        literal += "u"
    return constant.c % literal


def defined(name: str, number: str, doc: str) -> str:
    """A macro and its documentation, which stands above it where the line would be too long."""
    line = f"#define KULLNEYRA_{name} {number} /* {doc} */"
    return line if len(line) <= WIDTH else f"{comment(doc)}\n#define KULLNEYRA_{name} {number}"


def refusal_text(boundary: Boundary) -> str:
    """From a number to words."""
    cases = []
    for one in boundary.refusals.values():
        cases += [f"    case KULLNEYRA_{one.c}:", f'        return "{one.words}";']
    return "\n".join(
        [
            comment("What a number says in words, for messages; a number that no call answers has words, too."),
            "static inline const char *kullneyra_refusal_text(uint32_t number) {",
            "    switch (number) {",
            "    case KULLNEYRA_OK:",
            '        return "no fault";',
            *cases,
            "    default:",
            '        return "a number newer than this header";',
            "    }",
            "}",
            "",
        ]
    )


def version(boundary: Boundary) -> List[str]:
    """The version of the header."""
    parts = zip(("MAJOR", "MINOR", "PATCH"), boundary.version)
    return [
        comment("The version of this header; kullneyra_version answers that of the library. CHANGELOG.md says what may change."),
        f'#define KULLNEYRA_VERSION "{".".join(map(str, boundary.version))}"',
        *(f"#define KULLNEYRA_VERSION_{name} {number}" for name, number in parts),
        "",
    ]


def numbers(boundary: Boundary) -> str:
    """The part of the header that has the numbers: the version, the refusals, and the constants."""
    lines = [*version(boundary), comment("The number that a call answers."), defined("OK", "0", "no fault")]
    for one in boundary.refusals.values():
        only = "only printed by the program: " if one.program else ""
        lines.append(defined(one.c, str(one.number), only + boundary.text(one.doc, "c")))
    lines += ["", refusal_text(boundary)]
    lines.append(
        comment(
            "Limits, and what the calls write. Objects, starts, workers, batch and cutoff are 1 at least; references and"
            " sizes may be 0."
        )
    )
    lines += [defined(one.name, number_of(one), boundary.text(one.doc, "c")) for one in boundary.constants.values()]
    return "\n".join([*lines, "", ""])


def length(words: str) -> str:
    return f"KULLNEYRA_{words}_WORDS"


def struct(boundary: Boundary, record: Record) -> str:
    fields = [(f"    {TYPES[record.type]} {name};", doc) for name, doc in record.fields.items()]
    width = max(len(field) for field, _ in fields)
    lines = [f"{field.ljust(width)} /* {doc} */" if doc else field for field, doc in fields]
    doc = comment(boundary.text(record.doc, "c", plain=True))
    return "\n".join([doc, f"struct kullneyra_{record.name} {{", *lines, "};", ""])


def counts(record: Record) -> str:
    lines = wrapped(" ".join(f"X({name})" for name in record.counts), "#define KULLNEYRA_COUNTS(X) ", "    ", " \\")
    told = "The counts of a marking by name, in the same order: X(live) X(followed) and so on."
    return "\n".join([comment(told), " \\\n".join(lines), ""])


def lengths(boundary: Boundary) -> str:
    """The macros of the result words' lengths, each with the calls that have so many."""
    lines = [comment("Exact lengths of the result words.")]
    for record in boundary.records.values():
        if record.words:
            size = f"(sizeof(struct kullneyra_{record.name}) / sizeof({TYPES[record.type]}))"
            calls = [call for call in boundary.calls if record in (boundary.answer(call), boundary.moved(call))]
            lines.append(f"#define {length(record.words)} {size} /* {', '.join(call.name for call in calls)} */")
    lines += [f"#define {length(call.words)} 1 /* {call.name} */" for call in boundary.calls if call.words]
    return "\n".join([*lines, ""])


def prototype(boundary: Boundary, call: Call) -> str:
    doc = f"{boundary.text(call.doc, 'c')} {call.c}".strip()
    if not call.result:
        doc += " Beside the number there is no answer."
    return "\n".join([comment(doc), filled(f"uint32_t kullneyra_{call.name}(", declared(call.all), ");"), ""])


RANGES = """\
/* Bytes of memory that a call is given, from the first to behind the last; none has neither. */
struct kullneyra_range {
    uintptr_t from;
    uintptr_t to;
};

static inline struct kullneyra_range kullneyra_range(const void *at, size_t len, size_t size) {
    struct kullneyra_range range = {0, 0};
    if (len != 0) {
        range.from = (uintptr_t)at;
        range.to = len <= (UINTPTR_MAX - range.from) / size ? range.from + len * size : UINTPTR_MAX;
    }
    return range;
}

/* Whether a call must not be made: one of the ranges that it writes, which stand in front of those that it only reads,
 * or its answer, has a byte in common with another. An answer that overlaps none is zeros then. */
static inline int kullneyra_shared(const struct kullneyra_range *ranges, size_t written, size_t all, void *answer,
                                   size_t size) {
    const struct kullneyra_range own = kullneyra_range(answer, answer != NULL, size);
    for (size_t k = 0; k < all; k++)
        if (own.from < ranges[k].to && ranges[k].from < own.to)
            return 1;
    for (size_t i = 0; i < written; i++)
        for (size_t k = i + 1; k < all; k++)
            if (ranges[i].from < ranges[k].to && ranges[k].from < ranges[i].to) {
                if (answer != NULL)
                    memset(answer, 0, size);
                return 1;
            }
    return 0;
}
"""


def apart(call: Call, moved: Optional[Record]) -> List[str]:
    """Ends the call where a range that it writes overlaps another."""
    lent = [one for one in call.parameters if one.lent]
    if not lent:
        return []
    written = [one for one in lent if one.lent != "&"]
    rows = []
    for one in written + [one for one in lent if one.lent == "&"]:
        number = 1 if moved and one.name == moved.moved else f"{one.name}_len"
        rows.append(f"        kullneyra_range({one.name}, {number}, sizeof *{one.name}),")
    answer = "answer, sizeof *answer" if call.result else "NULL, 0"
    return [
        "    const struct kullneyra_range ranges[] = {",
        *rows,
        "    };",
        f"    if (kullneyra_shared(ranges, {len(written)}, {len(lent)}, {answer}))",
        "        return KULLNEYRA_BUFFER;",
    ]


def into(boundary: Boundary, call: Call) -> str:
    """The form that looks at what overlaps, gives its answer in a struct, and takes a record that it moves as one."""
    moved, record = boundary.moved(call), boundary.answer(call)
    takes = declared(call.parameters, moved)
    gives = passed(call.parameters, moved, "state", length(moved.words) if moved else "")
    before, after = apart(call, moved), []
    if record:
        takes.append(f"struct kullneyra_{record.name} *answer")
        gives += ["words", length(record.words)]
        before.append(f"    {TYPES[record.type]} words[{length(record.words)}] = {{0}};")
        after.append("    memcpy(answer, words, sizeof *answer);")
    elif call.result:
        takes.append(f"{TYPES[call.result.type]} *answer")
        gives += ["answer", length(call.words)]
        before.append("    *answer = 0;")
    if moved:
        name = moved.moved
        before.append(f"    {TYPES[moved.type]} state[{length(moved.words)}];")
        before.append(f"    memcpy(state, {name}, sizeof *{name});")
        after.insert(0, f"    memcpy({name}, state, sizeof *{name});")
    if after:
        after.append("    return number;")
    head = filled(f"static inline uint32_t kullneyra_{call.name}_into(", takes, ") {")
    number = "const uint32_t number =" if after else "return"
    return "\n".join([head, *before, filled(f"    {number} kullneyra_{call.name}(", gives, ");"), *after, "}", ""])


def header(boundary: Boundary) -> str:
    """The written part of the header."""
    parts = [
        comment(
            "What a call answers beside its number: a struct for each answer, whose fields are the result words in their"
            " order."
        )
        + "\n"
    ]
    for record in boundary.records.values():
        parts.append(struct(boundary, record))
        if record.counts:
            parts.append(counts(record))
    parts.append(lengths(boundary))
    parts += [prototype(boundary, call) for call in boundary.calls]
    parts.append(
        comment(
            "The same calls with a struct for the answer, which is written in every case: what the call answers where the"
            " number is 0, and zeros beside a fault. Where a range that a call writes overlaps another one, the number is"
            " KULLNEYRA_BUFFER, and nothing is touched but an answer that overlaps nothing: it is zeros."
        )
        + "\n"
    )
    parts.append(RANGES)
    parts += [into(boundary, call) for call in boundary.calls]
    return "\n".join(parts) + "\n"
