"""What several calls take together."""

from __future__ import annotations

from array import array
from dataclasses import dataclass

from ._lent import Read, Write


def words(count: int) -> "array[int]":
    """So many words of 32 bits, all 0, for a call to write."""
    return array("I", bytes(4 * count))


def longs(count: int) -> "array[int]":
    """So many words of 64 bits, all 0, for a call to write."""
    return array("Q", bytes(8 * count))


def work(objects: int, workers: int) -> int:
    """The number of work words of a marking."""
    return workers * (2 * objects + 4)


def tallies(workers: int) -> int:
    """The number of tally words of a marking."""
    return 4 * workers


@dataclass
class Graph:
    """n + 1 offsets and m targets."""

    offsets: Read
    targets: Read


@dataclass(frozen=True)
class Settings:
    """Settings of a marking."""

    workers: int
    batch: int  # D
    cutoff: int  # K


@dataclass
class Buffers:
    """What a marking writes."""

    marks: Write  # n bytes
    work: Write  # work(n, w) words
    tallies: Write  # tallies(w) words of 64 bits

    @classmethod
    def of(cls, objects: int, workers: int) -> Buffers:
        """Buffers for so many objects and workers."""
        return cls(bytearray(objects), words(work(objects, workers)), longs(tallies(workers)))


@dataclass
class Renewed:
    """What `add` and `remove` write: the changed graph, and its marks."""

    graph: Graph
    marks: Write
    work: Write
