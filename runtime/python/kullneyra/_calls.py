"""The calls and their answers, written by tools/boundary.py from the exported functions."""

from __future__ import annotations

from array import array
from dataclasses import dataclass
from typing import Sequence

from ._lent import Call, Read, Write
from ._types import Buffers, Graph, Renewed, Settings

__all__ = ["Header", "Store", "Marked", "Stopped", "Tally", "Swept", "Seed", "header", "read", "mark", "mark_all",
    "saved_words", "begin", "resume", "sweep", "schedule_length", "deal", "hop_words", "hops", "update_words", "add",
    "remove", "market_header", "import_", "export_length", "export", "scan_length", "scan"]

_header = Call("header", "bytes: &[u8]", "u32", 3)
_read = Call(
    "read",
    "bytes: &[u8], offsets: &mut [u32], targets: &mut [u32], sizes: &mut [u64], starts: &mut [u32]",
    "u32",
    4,
)
_references = Call("references", "offsets: &[u32], targets: &[u32], object: u32", "u64", 2)
_mark = Call(
    "mark",
    "offsets: &[u32], targets: &[u32], starts: &[u32], workers: u32, batch: u32, cutoff: u32, schedule: &[u8],"
    " marks: &mut [u8], work: &mut [u32], tallies: &mut [u64]",
    "u64",
    7,
)
_mark_all = Call(
    "mark_all",
    "offsets: &[u32], targets: &[u32], starts: &[u32], workers: u32, batch: u32, cutoff: u32, marks: &mut [u8],"
    " work: &mut [u32], tallies: &mut [u64]",
    "u64",
    7,
)
_saved_words = Call("saved_words", "objects: u32, workers: u32", "u64", 1)
_begin = Call(
    "begin",
    "offsets: &[u32], targets: &[u32], starts: &[u32], workers: u32, batch: u32, cutoff: u32, schedule: &[u8],"
    " marks: &mut [u8], work: &mut [u32], tallies: &mut [u64], saved: &mut [u32]",
    "u64",
    8,
)
_resume = Call(
    "resume",
    "offsets: &[u32], targets: &[u32], starts: &[u32], workers: u32, batch: u32, cutoff: u32, schedule: &[u8],"
    " marks: &mut [u8], work: &mut [u32], tallies: &mut [u64], saved: &mut [u32]",
    "u64",
    8,
)
_sweep = Call("sweep", "marks: &[u8], sizes: &[u64], list: &mut [u32]", "u64", 2)
_schedule_length = Call("schedule_length", "cards: usize, workers: u32", "u64", 1)
_deal = Call("deal", "cards: &[u32], workers: u32, schedule: &mut [u8]")
_draw = Call("draw", "seed: &mut [u32]", "u32", 1)
_deal_seed = Call("deal_seed", "seed: &mut [u32], rounds: usize, workers: u32, schedule: &mut [u8]")
_hop_words = Call("hop_words", "objects: u32", "u64", 1)
_hops = Call("hops", "offsets: &[u32], targets: &[u32], starts: &[u32], hops: &mut [u32], work: &mut [u32]")
_update_words = Call("update_words", "objects: u32", "u64", 1)
_add = Call(
    "add",
    "offsets: &[u32], targets: &[u32], from: &[u32], to: &[u32], new_offsets: &mut [u32], new_targets: &mut [u32],"
    " marks: &mut [u8], work: &mut [u32]",
)
_remove = Call(
    "remove",
    "offsets: &[u32], targets: &[u32], numbers: &[u32], starts: &[u32], new_offsets: &mut [u32],"
    " new_targets: &mut [u32], marks: &mut [u8], work: &mut [u32]",
)
_market_header = Call("market_header", "text: &[u8]", "u32", 3)
_import = Call("import", "text: &[u8], offsets: &mut [u32], targets: &mut [u32], sizes: &mut [u64]", "u32", 3)
_export_length = Call("export_length", "offsets: &[u32], targets: &[u32]", "u64", 1)
_export = Call("export", "offsets: &[u32], targets: &[u32], out: &mut [u8]")
_scan_length = Call(
    "scan_length",
    "objects: u32, width: u32, names: &[u8], named: &[u32], texts: &[u8], ends: &[u64], owners: &[u32],"
    " work: &mut [u32]",
    "u64",
    1,
)
_scan = Call(
    "scan",
    "objects: u32, width: u32, names: &[u8], named: &[u32], texts: &[u8], ends: &[u64], owners: &[u32],"
    " work: &mut [u32], from: &mut [u32], to: &mut [u32]",
)


@dataclass(frozen=True)
class Header:
    """`header`: what the catalogue's header says; `market_header` and `import_`: what the text's counts say, and index
    0."""

    objects: int  # objects
    references: int  # references, and subjects
    index: int  # the object at which every collection starts

    @classmethod
    def of(cls, words: Sequence[int]) -> Header:
        """These words by name."""
        objects, references, index = words
        return cls(objects, references, index)


@dataclass(frozen=True)
class Store:
    """`read`: what `header` says, and how many starts the start buffer holds."""

    objects: int  # objects
    references: int  # references, and subjects
    index: int  # the first start
    starts: int  # the index and the leases

    @classmethod
    def of(cls, words: Sequence[int]) -> Store:
        """These words by name."""
        objects, references, index, starts = words
        return cls(objects, references, index, starts)


@dataclass(frozen=True)
class Marked:
    """`mark`, `mark_all`: what the turns did."""

    finished: bool  # every worker has ended: the marks are exactly the reachable objects
    live: int  # marked objects
    followed: int  # references followed
    handed: int  # polls that shared
    refused: int  # askers that were refused
    moved: int  # turns that changed something
    carrying: int  # workers that carry references now

    @classmethod
    def of(cls, words: Sequence[int]) -> Marked:
        """These words by name."""
        finished, live, followed, handed, refused, moved, carrying = words
        return cls(finished != 0, live, followed, handed, refused, moved, carrying)


@dataclass(frozen=True)
class Stopped:
    """`begin`, `resume`: what the turns did, over all calls of a collection, and whether what is saved can be taken up.
    """

    finished: bool  # every worker has ended: the marks are exactly the reachable objects
    live: int  # marked objects
    followed: int  # references followed
    handed: int  # polls that shared
    refused: int  # askers that were refused
    moved: int  # turns that changed something
    carrying: int  # workers that carry references now
    # the saved words hold a sound collection, as those of one begun here always do; else they will be refused
    sound: bool

    @classmethod
    def of(cls, words: Sequence[int]) -> Stopped:
        """These words by name."""
        finished, live, followed, handed, refused, moved, carrying, sound = words
        return cls(finished != 0, live, followed, handed, refused, moved, carrying, sound != 0)


@dataclass(frozen=True)
class Tally:
    """`mark`: what one worker did, over its own turns. Over all workers, followed and handed add up to those of the
    marking, and the won claims and the different starts make its live."""

    followed: int  # references followed
    won: int  # claims won: objects that it was the first to reach
    lost: int  # claims lost to another worker
    handed: int  # hand-overs that it gave

    @classmethod
    def of(cls, words: Sequence[int]) -> Tally:
        """These words by name."""
        followed, won, lost, handed = words
        return cls(followed, won, lost, handed)


@dataclass(frozen=True)
class Swept:
    """`sweep`: the dead objects."""

    count: int  # how many they are
    freed: int  # the sum of their sizes

    @classmethod
    def of(cls, words: Sequence[int]) -> Swept:
        """These words by name."""
        count, freed = words
        return cls(count, freed)


@dataclass
class Seed:
    """`Seed.draw`, `Seed.deal_seed`: the two words of a seed, which the caller keeps and the draws move. The first is
    not 0."""

    first: int = 0
    second: int = 0

    def draw(self) -> int:
        """Draws a card: moves the two words of the seed on and answers the card of the moved words. Beside a refusal
        the seed is as it was."""
        words = array("I", (self.first, self.second))
        answer = _draw(words)
        self.first, self.second = words
        return answer[0]

    def deal_seed(self, rounds: int, workers: int, schedule: Write) -> None:
        """The schedule of so many draws, which is that of their cards; leaves the seed as those draws do. The schedule
        is as long as that of so many cards. Beside a refusal seed and schedule are as they were."""
        words = array("I", (self.first, self.second))
        _deal_seed(words, rounds, workers, schedule)
        self.first, self.second = words


def header(bytes: Read) -> Header:
    """Reads only the catalogue's header record."""
    return Header.of(_header(bytes))


def read(bytes: Read, offsets: Write, targets: Write, sizes: Write, starts: Write) -> Store:
    """Checks the whole catalogue and fills offsets, targets, sizes and starts: the index, the leases in their order,
    and zeros behind them. A subject record fills in a reference from the subject to the object that names it, so that a
    signature lives while its image does."""
    return Store.of(_read(bytes, offsets, targets, sizes, starts))


def mark(graph: Graph, starts: Read, settings: Settings, schedule: Read, buffers: Buffers) -> Marked:
    """Marks what the starts reach, by the turns of the schedule: two bytes for each, the worker and whom it asks. The
    starts are the index and then the leases; a repeated one adds nothing. Only when the collection is finished are the
    objects with mark 0 unreachable. A mark tells who claimed the object: b + 1 for worker b; a start has mark 1. The
    tallies are four words for each worker, worker 0's first: the fields of `Tally`."""
    return Marked.of(
        _mark(graph.offsets, graph.targets, starts, settings.workers, settings.batch, settings.cutoff, schedule,
            buffers.marks, buffers.work, buffers.tallies)
    )


def mark_all(graph: Graph, starts: Read, settings: Settings, buffers: Buffers) -> Marked:
    """A whole collection without a schedule, which is always finished: the workers have their turns in rounds, each
    asking the next one, until all have ended. Answer, marks, work and tallies are those of `mark` with so many rounds.
    With one worker nobody asks, and its turns are made in rows: the quickest way to mark."""
    return Marked.of(
        _mark_all(graph.offsets, graph.targets, starts, settings.workers, settings.batch, settings.cutoff,
            buffers.marks, buffers.work, buffers.tallies)
    )


def saved_words(objects: int, workers: int) -> int:
    """How many words a saved collection of n objects with so many workers takes, as docs/SPECIFICATION.md, 8.1, has it.
    """
    return _saved_words(objects, workers)[0]


def begin(graph: Graph, starts: Read, settings: Settings, schedule: Read, buffers: Buffers, saved: Write) -> Stopped:
    """As `mark`, and saves the collection: everything that is needed to go on later stands in the saved words, marks
    too. Nobody has to keep the other buffers, but the graph, the starts and the settings are passed again. The words
    are for this library; docs/SPECIFICATION.md, 8.1, has their layout. What is saved is sound."""
    return Stopped.of(
        _begin(graph.offsets, graph.targets, starts, settings.workers, settings.batch, settings.cutoff, schedule,
            buffers.marks, buffers.work, buffers.tallies, saved)
    )


def resume(graph: Graph, starts: Read, settings: Settings, schedule: Read, buffers: Buffers, saved: Write) -> Stopped:
    """Takes a saved collection up with more turns, and saves it again. A collection that was begun with the same graph,
    starts and settings ends as one call with all the turns would have ended it, counts and tallies included. Marks,
    work and tallies need not hold anything before. Saved words that hold no sound collection are `Cause.UNSOUND`.
    Whoever wrote them: a collection that is finished has marked all that lives. The answer's sound tells whether
    `resume` would take up what is saved now: it is 0 only where somebody else wrote the words, and turns took moved or
    handed above its bound."""
    return Stopped.of(
        _resume(graph.offsets, graph.targets, starts, settings.workers, settings.batch, settings.cutoff, schedule,
            buffers.marks, buffers.work, buffers.tallies, saved)
    )


def sweep(marks: Read, sizes: Read, list: Write) -> Swept:
    """Lists the objects whose mark is 0, upwards, then zeros; answers how many they are and what their sizes add up to.
    """
    return Swept.of(_sweep(marks, sizes, list))


def schedule_length(cards: int, workers: int) -> int:
    """How many bytes the schedule of so many cards has: two for each worker, for each card. `Cause.BUFFER` where no
    buffer is so long."""
    return _schedule_length(cards, workers)[0]


def deal(cards: Read, workers: int, schedule: Write) -> None:
    """The schedule of a hand of cards, for the marker's call with so many workers: each card is a round in which every
    worker has a turn, in the card's order, and asks the one after it, the last the first. The schedule is exactly as
    long as `schedule_length` says."""
    _deal(cards, workers, schedule)


def hop_words(objects: int) -> int:
    """How many work words `hops` takes for so many objects."""
    return _hop_words(objects)[0]


def hops(graph: Graph, starts: Read, hops: Write, work: Write) -> None:
    """For each object the least number of references from a start, `NO_HOPS` where no chain leads to it. hops has as
    many words as there are objects, and work as many as `hop_words` says; what they held before does not matter, and
    afterwards the two work words of an object without a count are as they were. Offsets, targets and starts are checked
    as in `mark`. Beside a refusal both are as they were."""
    _hops(graph.offsets, graph.targets, starts, hops, work)


def update_words(objects: int) -> int:
    """How many work words `add` and `remove` take for so many objects."""
    return _update_words(objects)[0]


def add(graph: Graph, from_: Read, to: Read, renewed: Renewed) -> None:
    """Adds the references `from_[i]` -> `to[i]` to a store. `renewed.graph.offsets` has as many words as offsets, and
    `renewed.graph.targets` as many as targets and from together: an object's new references stand behind its old ones,
    in list order. An object that is newly live gets the mark `NEWLY_LIVE`, and a mark that is set keeps its value. The
    marks must be closed under the old references (`Cause.NOT_CLOSED`), as those of a finished collection are. A work
    word that has changed names an object newly live. Beside a refusal all four are as they were."""
    _add(
        graph.offsets, graph.targets, from_, to, renewed.graph.offsets, renewed.graph.targets, renewed.marks,
        renewed.work
    )


def remove(graph: Graph, numbers: Read, starts: Read, renewed: Renewed) -> None:
    """Takes the references with these numbers out of a store; a number that stands in the list twice counts once.
    `renewed.graph.targets` has as many words as references remain. The marks are made afresh: 1 for a start,
    `NEWLY_LIVE` for what else is reached, 0 for the rest; what they held before does not matter. A work word that has
    changed names a marked object. Beside a refusal all four are as they were."""
    _remove(
        graph.offsets, graph.targets, numbers, starts, renewed.graph.offsets, renewed.graph.targets, renewed.marks,
        renewed.work
    )


def market_header(text: Read) -> Header:
    """What the counts of a Matrix Market text say, so that buffers can be lent to `import_`. Looks only at what stands
    before the pairs."""
    return Header.of(_market_header(text))


def import_(text: Read, offsets: Write, targets: Write, sizes: Write) -> Header:
    """A graph from a Matrix Market text: fills offsets, targets and sizes as `read` does from the catalogue of the same
    pairs in the same order, with the sizes 0. The index is 0."""
    return Header.of(_import(text, offsets, targets, sizes))


def export_length(graph: Graph) -> int:
    """How many bytes the Matrix Market text of a graph has."""
    return _export_length(graph.offsets, graph.targets)[0]


def export(graph: Graph, out: Write) -> None:
    """Writes the Matrix Market text of a graph into a buffer of exactly as many bytes as `export_length` says."""
    _export(graph.offsets, graph.targets, out)


def scan_length(objects: int, width: int, names: Read, named: Read, texts: Read, ends: Read, owners: Read,
    work: Write) -> int:
    """How many mentions there are in texts: places where the bytes of a name stand, whatever stands around them. The
    names are `width` lower-case hexadecimal digits each, one behind the other, ascending and distinct; named[k] is the
    object that name k names. The texts stand one behind the other too: text i ends where ends[i] says, and owners[i] is
    the object that it belongs to. The work is `SCAN_WORK` words, all 0, and they are 0 again afterwards."""
    return _scan_length(objects, width, names, named, texts, ends, owners, work)[0]


def scan(objects: int, width: int, names: Read, named: Read, texts: Read, ends: Read, owners: Read, work: Write,
    from_: Write, to: Write) -> None:
    """Writes each mention as a pair `from_[i]` -> `to[i]`, by text and then by place: the owner of the text, and the
    object whose name stands there. Both lists have exactly as many words as `scan_length` says. `add` takes them as
    references."""
    _scan(objects, width, names, named, texts, ends, owners, work, from_, to)
