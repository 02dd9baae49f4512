"""The version, the refusals and the constants, written by tools/boundary.py from the constants of the crates."""

from enum import IntEnum

__all__ = ["VERSION", "Cause", "MOST_OBJECTS", "MOST_REFERENCES", "LARGEST_SIZE", "MOST_LEASES", "STARTS",
    "MOST_WORKERS", "MOST_SETTING", "DECK", "CARD_WORKERS", "NO_HOPS", "SCAN_WORK", "NEWLY_LIVE"]

VERSION = "1.0.0"

# Limits, and what the calls write. Objects, starts, workers, batch and cutoff are 1 at least; references and sizes may
# be 0.
MOST_OBJECTS = 65536  # the most objects that a store has
MOST_REFERENCES = 1048576  # the most references that a store has
LARGEST_SIZE = 1099511627776  # the largest size of an object
MOST_LEASES = 256  # the most leases that a store has
STARTS = 257  # the words of the start buffer: the index and the most leases
MOST_WORKERS = 16  # the most workers of a marking
MOST_SETTING = 65535  # the largest batch and the largest cutoff of a marking
DECK = 720  # how many cards the deck has; they are numbered from 0
CARD_WORKERS = 6  # the most workers that cards deal turns to
NO_HOPS = 4294967295  # the hop count of an object to which no chain of references leads
SCAN_WORK = 135169  # the work words of a scan
NEWLY_LIVE = 255  # the mark of an object that a change finds live, where it is no start


class Cause(IntEnum):
    """Why a call is refused: the numbers of docs/SPECIFICATION.md. The program alone answers LARGE and FILE."""

    SHORT = 1  # the bytes end too soon for a record; also empty
    KIND = 2  # unknown kind of record, or a length that its kind does not have
    PLACE = 3  # a record that is not due at its place, or one too many
    COUNT = 4  # number of objects or of references out of range
    # index, from, to, a lease, a start, a name or an owner is no object's number; also 0 in `import_`, no reference's
    # number in `remove`
    OBJECT = 5
    SIZE = 6  # a size above `LARGEST_SIZE`
    BUFFER = 7  # a lent buffer is not as long as it must be, or overlaps another
    SETTING = 8  # workers, batch or cutoff out of range
    SCHEDULE = 9  # half an entry at the schedule's end, or one for a worker that is not there
    GRAPH = 10  # offsets and targets that are no graph
    LARGE = 11  # a file, or a number in it, is too large for the program
    FILE = 12  # a file cannot be read
    NO_STARTS = 13  # no start, or more leases than `MOST_LEASES`
    UNSOUND = 14  # saved words that hold no sound collection of this graph, these starts and settings
    CARDS = 15  # a card that is not in the deck, or more workers than `CARD_WORKERS`
    NO_SEED = 16  # the first word of a seed is 0
    NOT_CLOSED = 17  # a marked object has a reference to an unmarked one
    TEXT = 18  # a text that is no Matrix Market file of a graph
    NAMES = 19  # names that do not ascend, are not lower-case hexadecimal, or have no bytes


REASONS = {
    Cause.SHORT: "the bytes end too soon for a record",
    Cause.KIND: "unknown kind of record, or a length that its kind does not have",
    Cause.PLACE: "a record that is not due at its place, or one too many",
    Cause.COUNT: "number of objects or of references out of range",
    Cause.OBJECT: "the number of an object or of a reference that is not there",
    Cause.SIZE: "the size of an object is too large",
    Cause.BUFFER: "a lent buffer is not as long as it must be, or overlaps another",
    Cause.SETTING: "workers, batch or cutoff out of range",
    Cause.SCHEDULE: "half an entry at the schedule's end, or one for a worker that is not there",
    Cause.GRAPH: "offsets and targets that are no graph",
    Cause.LARGE: "a file, or a number in it, is too large for the program",
    Cause.FILE: "a file cannot be read",
    Cause.NO_STARTS: "no start, or too many leases",
    Cause.UNSOUND: "saved words that hold no sound collection",
    Cause.CARDS: "a card that is not in the deck, or more workers than a card has",
    Cause.NO_SEED: "the first word of a seed is 0",
    Cause.NOT_CLOSED: "a marked object has a reference to an unmarked one",
    Cause.TEXT: "a text that is no Matrix Market file of a graph",
    Cause.NAMES: "names that do not ascend, or are not lower-case hexadecimal",
}
