#!/usr/bin/env python3
"""The boundary from one source: C, Rust, Go and Python as the exported functions of the crates ffi_* have the calls.

    tools/boundary.py             writes the files below, the header between its marks
    tools/boundary.py --check     writes nothing, says where a file is another, and ends with 1 then

    runtime/include/kullneyra.h             version, refusals, constants, structs, prototypes, the forms that answer in a struct
    runtime/rust/kullneyra/src/numbers.rs   the version, the refusals and the constants
    runtime/rust/kullneyra/src/raw.rs       the C functions on slices
    runtime/rust/kullneyra/src/calls.rs     the functions with Rust's own types
    runtime/rust/compare/src/calls.rs       what each call may answer, the calls of numbers, the sides that only pass on
    runtime/go/kullneyra/calls.go           the functions in Go
    runtime/go/kullneyra/numbers.go         the version, the refusals and the constants
    runtime/python/kullneyra/_calls.py      the functions in Python
    runtime/python/kullneyra/_numbers.py    the version, the refusals and the constants

The file VERSION has the version, and tools/boundary.toml what a signature does not say. What is not understood is an error, and nothing is written then.
"""

import sys
from pathlib import Path
from typing import Dict, Iterator, List

import boundary_c
import boundary_go
import boundary_python
import boundary_rust
from boundary_source import NUMBERS_WRITTEN, WRITTEN, Boundary, Fault

TOP = Path(__file__).resolve().parent.parent
HEADER = "runtime/include/kullneyra.h"
NUMBERS = "runtime/rust/kullneyra/src/numbers.rs"
RAW = "runtime/rust/kullneyra/src/raw.rs"
TYPED = "runtime/rust/kullneyra/src/calls.rs"
COMPARE = "runtime/rust/compare/src/calls.rs"
GO = "runtime/go/kullneyra/calls.go"
GO_NUMBERS = "runtime/go/kullneyra/numbers.go"
PYTHON = "runtime/python/kullneyra/_calls.py"
PYTHON_NUMBERS = "runtime/python/kullneyra/_numbers.py"
END = "/* Up to here. */\n"


def between_marks(text: str, written: str, part: str) -> str:
    """The header with this part between its marks; the first says how it is written."""
    begin = f"/* From here on {written}. */\n\n"
    start = text.find(begin)
    end = text.find(END, start)
    if start < 0 or end < 0:
        raise Fault(f"{HEADER}: the lines {begin.strip()} and {END.strip()} are not there")
    return text[: start + len(begin)] + part + text[end:]


def files(top: Path) -> Dict[str, str]:
    """The files as they should be."""
    boundary = Boundary(top)
    header = between_marks((top / HEADER).read_text(encoding="utf-8"), NUMBERS_WRITTEN, boundary_c.numbers(boundary))
    return {
        HEADER: between_marks(header, WRITTEN, boundary_c.header(boundary)),
        NUMBERS: boundary_rust.numbers(boundary),
        RAW: boundary_rust.raw(boundary),
        TYPED: boundary_rust.typed(boundary),
        COMPARE: boundary_rust.compare(boundary),
        GO: boundary_go.go(boundary),
        GO_NUMBERS: boundary_go.numbers(boundary),
        PYTHON: boundary_python.python(boundary),
        PYTHON_NUMBERS: boundary_python.numbers(boundary),
    }


def differences(top: Path) -> Iterator[str]:
    """Each file that is another, and the first line in which it is."""
    for path, wanted in files(top).items():
        found = (top / path).read_text(encoding="utf-8") if (top / path).exists() else ""
        if found != wanted:
            lines = [[*text.split("\n"), "the end"] for text in (found, wanted)]
            number, one, other = next((at, *pair) for at, pair in enumerate(zip(*lines), 1) if pair[0] != pair[1])
            yield f"{path}:{number}: {one.strip()!r} and not {other.strip()!r}"


def main(arguments: List[str], top: Path = TOP) -> int:
    if arguments not in ([], ["--check"]):
        print(__doc__)
        return 2
    try:
        if arguments:
            found = list(differences(top))
            for line in found:
                print(f"boundary: {line}")
            return 1 if found else 0
        for path, text in files(top).items():
            beside = top / f"{path}.new"
            try:
                beside.write_text(text, encoding="utf-8")
                beside.replace(top / path)
            finally:
                beside.unlink(missing_ok=True)
        return 0
    except (Fault, OSError, UnicodeDecodeError) as fault:
        print(f"boundary: {fault}")
        return 1


if __name__ == "__main__":
    sys.exit(main(sys.argv[1:]))
