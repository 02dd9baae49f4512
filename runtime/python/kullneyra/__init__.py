"""The proved calls of the box marker over buffers: the reader, the marker, the sweep, and what stands around them.
docs/SPECIFICATION.md says what each does.

A call takes any values and any buffers, and answers what the specification says, or raises `Refusal` with the number of the first
fault that it found; beside a refusal every lent buffer is as it was. One that it writes and that overlaps another of its buffers is
refused as `Cause.BUFFER`. A number that its type does not hold is an OverflowError, and a buffer of other elements a TypeError.
No call keeps anything, and none holds the interpreter's lock, so threads may call side by side as long as no buffer that a call
writes is shared.

    >>> from kullneyra import *
    >>> graph = Graph([0, 2, 3, 4, 5, 5, 6], [1, 2, 3, 3, 0, 4])     # 0→1, 0→2, 1→3, 2→3, 3→0, 5→4
    >>> buffers = Buffers.of(objects=6, workers=1)
    >>> marked = mark(graph, [0], Settings(workers=1, batch=2, cutoff=1), bytes(2 * 40), buffers)
    >>> marked.finished, marked.live, marked.followed
    (True, 4, 5)
    >>> dead = words(6)
    >>> swept = sweep(buffers.marks, [100, 200, 300, 400, 500, 600], dead)
    >>> list(dead[:swept.count]), swept.freed
    ([4, 5], 1100)
    >>> header(b"")
    Traceback (most recent call last):
    kullneyra.Refusal: refusal 1: the bytes end too soon for a record

The shared library is looked for as the system does; where it stands elsewhere, KULLNEYRA_LIB_DIR names its folder.
"""

from __future__ import annotations

import ctypes as _ctypes
from enum import IntEnum
from typing import List, Sequence, Union

from . import _calls, _numbers
from ._calls import *
from ._lent import Refusal, library as _library
from ._numbers import *
from ._types import Buffers, Graph, Renewed, Settings, longs, tallies, words, work

__version__ = VERSION

__all__ = [
    *_calls.__all__, *_numbers.__all__, "Buffers", "Graph", "Owner", "Refusal", "Renewed", "Settings", "library_version", "longs",
    "owner_of", "references", "tallies", "tally_of", "words", "work",
]  # fmt: skip


def library_version() -> str:
    """The version of the library that was loaded, as `VERSION` is that of this package."""
    asked = _library.kullneyra_version
    asked.restype = _ctypes.c_char_p
    return asked().decode()


def references(graph: Graph, object: int) -> List[int]:
    """The targets of one object's references; empty if there is no such object."""
    start, length = _calls._references(graph.offsets, graph.targets, object)
    return list(graph.targets[start : start + length])


def tally_of(tallies: Sequence[int], worker: int) -> Tally:
    """One worker's tally, of the words that a marking left."""
    return Tally.of(tallies[4 * worker : 4 * worker + 4])


class Owner(IntEnum):
    """Who claimed an object, where no worker did."""

    NOBODY = -1  # the object is not marked
    START = -2  # a collection starts there
    REACHED = -3  # `add` or `remove` found it live: no worker claimed it


def owner_of(mark: int, is_start: bool) -> Union[Owner, int]:
    """Who claimed an object, by its mark: an `Owner`, or the worker's number. A start is told by the caller, since its mark is 1, as that
    of what worker 0 claimed."""
    if mark == 0:
        return Owner.NOBODY
    if mark == 1 and is_start:
        return Owner.START
    return Owner.REACHED if mark == NEWLY_LIVE else mark - 1
