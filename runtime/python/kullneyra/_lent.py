"""The C functions of the shared library, and the buffers that are lent to them."""

from __future__ import annotations

import ctypes
import operator
import os
from array import array
from typing import Any, List, NamedTuple, Sequence, Tuple, Union

from ._numbers import REASONS, VERSION, Cause

# What a call only reads: a sequence of numbers, or a buffer of them. What it writes: a buffer, whose elements have the call's
# width: a bytearray for bytes, an array of type code "I" for words of 32 bits and "Q" for those of 64, or the like.
Read = Union[Sequence[int], bytes, bytearray, memoryview, "array[int]"]
Write = Union[bytearray, memoryview, "array[int]"]


class Refusal(Exception):
    """A call was refused: the number of the first fault that it found, a `Cause`. Beside it every lent buffer is as it was."""

    __module__ = "kullneyra"

    def __init__(self, number: int):
        super().__init__(number)
        self.number = number

    @property
    def text(self) -> str:
        """What the number says in words."""
        return REASONS.get(self.number, "a number newer than this package")

    def __str__(self) -> str:
        return f"refusal {self.number}: {self.text}"


def load() -> ctypes.CDLL:
    """The shared library: from the folder that KULLNEYRA_LIB_DIR names, or as the system finds it."""
    name = f"libkullneyra.so.{VERSION.partition('.')[0]}"
    path = os.path.join(os.environ.get("KULLNEYRA_LIB_DIR", ""), name)
    try:
        return ctypes.CDLL(path)
    except OSError as why:
        raise ImportError(
            f"{path} cannot be loaded ({why}). Debian's package libkullneyra1 or `make install` installs it; `make shared` makes it"
            " in the repository, in target/sharedlib. Where it stands elsewhere, KULLNEYRA_LIB_DIR names its folder."
        ) from why


library = load()


class Element(NamedTuple):
    """The elements of a buffer: in C, and as array has them."""

    type: Any
    code: str
    bits: int


ELEMENTS = {
    "u8": Element(ctypes.c_uint8, "B", 8),
    "u32": Element(ctypes.c_uint32, "I", 32),
    "u64": Element(ctypes.c_uint64, "Q", 64),
    "usize": Element(ctypes.c_size_t, "Q", 64),
}


class Parameter:
    """A number, or a buffer that a call reads or writes."""

    def __init__(self, text: str):
        self.name, _, kind = text.partition(": ")
        self.lent, self.written = kind.startswith("&"), kind.startswith("&mut ")
        self.element = ELEMENTS[kind.partition("[")[2].rstrip("]") if self.lent else kind]

    def types(self) -> List[Any]:
        return [ctypes.POINTER(self.element.type), ctypes.c_size_t] if self.lent else [self.element.type]

    def number(self, given: int) -> int:
        """The number, which C would cut where it is too large."""
        number = operator.index(given)
        if number < 0 or number >> self.element.bits:
            raise OverflowError(f"{self.name}: {number} does not fit into {self.element.bits} bits")
        return number

    def buffer(self, given: Any) -> Any:
        """A C array over the buffer itself. A copy of what is only read and lies in no buffer that can be written."""
        try:
            view = memoryview(given)
        except TypeError:
            if self.written:
                raise TypeError(f"{self.name}: {self.wanted()} is written, and not {type(given).__name__}") from None
            view = memoryview(array(self.element.code, given))
        wide = ctypes.sizeof(self.element.type)
        if view.itemsize != wide or view.format.lstrip("@=<") not in ("B", "I", "L", "Q", "N") or not view.c_contiguous:
            raise TypeError(f"{self.name}: {self.wanted()} is wanted, and not elements of the format {view.format!r}")
        if self.written and view.readonly:
            raise TypeError(f"{self.name}: {self.wanted()} is written, and this cannot be")
        whole = self.element.type * (view.nbytes // wide)
        if view.nbytes == 0:
            return whole()
        return whole.from_buffer_copy(view) if view.readonly else whole.from_buffer(view)

    def wanted(self) -> str:
        return "a bytearray" if self.element.bits == 8 else f'an array of type code "{self.element.code}"'


def shared(lent: List[Tuple[bool, Any]]) -> bool:
    """Whether a buffer that is written has a byte in common with another."""
    ranges = [(ctypes.addressof(one), ctypes.addressof(one) + ctypes.sizeof(one), written) for written, one in lent]
    ranges = [one for one in ranges if one[0] < one[1]]
    return any(
        (a[2] or b[2]) and a[0] < b[1] and b[0] < a[1] for place, a in enumerate(ranges) for b in ranges[place + 1 :]
    )


class Call:
    """A C function by its signature, and how many result words it has."""

    def __init__(self, name: str, takes: str, result: str = "", words: int = 0):
        self.parameters = [Parameter(text) for text in takes.split(", ")] if takes else []
        self.words = (ELEMENTS[result].type * words) if words else None
        self.function = getattr(library, f"kullneyra_{name}")
        self.function.restype = ctypes.c_uint32
        types = [one for parameter in self.parameters for one in parameter.types()]
        if self.words:
            types += [ctypes.POINTER(ELEMENTS[result].type), ctypes.c_size_t]
        self.function.argtypes = types

    def __call__(self, *given: Any) -> Tuple[int, ...]:
        """The result words; a refusal is raised."""
        passed: List[Any] = []
        lent: List[Tuple[bool, Any]] = []
        for parameter, value in zip(self.parameters, given, strict=True):
            if parameter.lent:
                buffer = parameter.buffer(value)
                lent.append((parameter.written, buffer))
                passed += [buffer, len(buffer)]
            else:
                passed.append(parameter.number(value))
        if shared(lent):
            raise Refusal(Cause.BUFFER)
        result = self.words() if self.words else None
        if result is not None:
            passed += [result, len(result)]
        number = self.function(*passed)
        if number != 0:
            raise Refusal(number)
        return tuple(result or ())
