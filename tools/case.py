#!/usr/bin/env python3
"""A case written by hand, to and from the files that the programs read.

    case.py make CASE.txt FOLDER    writes FOLDER/store.cat and FOLDER/order.run; FOLDER/store.update too
                                    if references come or go, and FOLDER/collection.saved if the case
                                    tells of a stopped collection. '-' for CASE.txt is standard input
    case.py show FOLDER             prints the case that these files hold
    case.py show FOLDER --marks M   the same, with who claimed each object: M holds the marks that a
                                    marking or an update of the case left, a byte for each object
    case.py run FOLDER              runs target/bin/collect there, and says what a refusal means
    case.py explain N               says what the refusal N means, and where to look; without N that in
                                    the last line of standard input, which is printed

A case is lines of words in UTF-8. '#' begins a comment, blank lines are skipped.

`make` leaves nothing of an earlier case in FOLDER: an update goes, and so does a stopped collection of
another store or order, which is said. One of this very store and order stays.

    index OBJECT          the index object; once, before the objects
    object SIZE           one line for each object; the first is number 0
    reference FROM TO     one line for each reference, in catalogue order
    subject FROM TO       one line for each object that names its subject, among the references: FROM, a
                          signature or the like, names TO, and is held by it
    lease OBJECT          one line for each lease, in catalogue order
    boxes W               settings; each once
    batch D
    cutoff K
    turn BOX ASKED        a turn of box BOX that names box ASKED
    turns ASKED: BOX ...  several turns that all name box ASKED
    cards CARD ...        a round of turns for each card, 0 to 719, for up to six boxes: behind the line
                          with their number. Those below it have a turn each, in the card's order, and
                          each names the next, the last the first
    seed A B rounds N     the rounds of N cards drawn from the seed of these two words

Cards and seeds are dealt by the proved library, up to 1,048,576 turns in a case: `make deal` builds the program that does it.

References that go and come are an update of the store that the lines above tell. The Rust crate's
example update takes the ones out, and then adds the others.

    remove NUMBER         one line for each reference that goes, by its number in the store: those of
                          object 0 stand first, and each object's in catalogue order
    remove FROM TO        all references from FROM to TO go
    add FROM TO           one line for each reference that comes, in list order

A subject is a reference from the subject to the object that names it there. store.update has words of 32
bits, the lowest byte first: how many come, how many go, the FROM of each that comes, the TO of each, and
the number of each that goes.

A stopped collection, which the program pause takes up, stands behind all of that. What is not told is 0.

    saved TURNS           the first so many turns of the order were made; once, before the other lines
    form F                the number of the form, where it is not 2
    count NAME N          NAME is live, followed, handed, refused, moved or carrying
    token BOX COLOUR      the box that holds the token; COLOUR is white, black or another number
    black BOX ...         the boxes that are black
    box BOX STATUS cell ASKER since S batch N
                          STATUS is idle, asking, denied, ended, given, poll, look, claim or another
                          number; ASKER is '-' if the cell is empty
    tally BOX followed F won W lost L handed H
    mark OBJECT MARK
    run BOX FIRST END     the references FIRST to END - 1; a box's runs in stored order, the run that
                          is followed first last

Numbers are decimal, and have only to fit their fields: a case may break the rules of the store on
purpose, to see which number the program refuses it with.
"""

import argparse
import hashlib
import re
import struct
import subprocess
import sys
import textwrap
from collections import defaultdict
from dataclasses import dataclass, field
from pathlib import Path
from typing import Iterator, Optional

TOP = Path(__file__).resolve().parents[1]

# The kinds of records, and the length of each.
HEADER, OBJECT, REFERENCE, LEASE, SUBJECT = 1, 2, 3, 4, 5
LENGTHS = {HEADER: 16, OBJECT: 12, REFERENCE: 12, LEASE: 8, SUBJECT: 12}

# The settings in the order of order.run, and the largest number that each field holds.
SETTINGS = {"boxes": 0xFF, "batch": 0xFFFF, "cutoff": 0xFFFF}
SETTINGS_FORMAT = struct.Struct("<BHH")

BYTE, WORD, LONG = 0xFF, 0xFFFFFFFF, 0xFFFFFFFFFFFFFFFF

# References that come and go, and the mark of an object that was reached by them.
UPDATE_NAME = "store.update"
REACHED = 255

# The saved words of a stopped collection: the counts and statuses in their order, and the numbers of a tally.
SAVED_NAME = "collection.saved"
FORM = 2
COUNTS = ("live", "followed", "handed", "refused", "moved", "carrying")
STATUSES = ("idle", "asking", "denied", "ended", "given", "poll", "look", "claim")
COLOURS = ("white", "black")
TALLY = ("followed", "won", "lost", "handed")

# What deals cards, the last card, and why cards are not dealt, by the number of the refusal.
DEAL = TOP / "target" / "course" / "deal"
LAST_CARD = 719
# A case has no more turns than this from cards and seeds.
MOST_DEALT = 1 << 20
NOT_DEALT = {8: "for-boxes", 15: "for-boxes", 16: "seed-zero"}
# The program that collects a store.
COLLECT = TOP / "target" / "bin" / "collect"


# What may be wrong with the text of a case. The page says it in other languages by these keys (page/words).
SAID = {
    "not-utf8": "the case is not text in UTF-8, from byte {at} on",
    "no-number": "'{word}' is not a decimal number",
    "above": "{value} is above {most}",
    "above-digits": "a number of {digits} digits is above {most}",
    "unknown": "'{word}' begins no line of a case; these do: {words}",
    "form": "expected: {form}; found: {found}",
    "twice": "a second line '{word}', where a case has one",
    "told-twice": "{word} {place} is told a second time",
    "not-saved": "'{word}' tells of a stopped collection, so a line 'saved TURNS' stands before it",
    "no-name": "'{word}' is none of these: {names}",
    "no-code": "'{word}' is none of these and no decimal number: {names}",
    "no-line": "there is no {word} line",
    "no-reference": "no reference leads from {source} to {target}",
    "for-boxes": "cards are for 1 to 6 boxes, whose number stands before them",
    "seed-zero": "the first word of a seed is not 0",
    "most-dealt": "cards and seeds give a case at most {most} turns",
    "no-deal": "cards are dealt by {program}, which is not there: make deal builds it",
    "deal-ended": "{program} ended with status {status}",
    "deal-refused": "{program} answers the refusal {refusal}",
    "deal-other": "{program} does not answer with the turns of {rounds} rounds",
}
LONGEST_QUOTED = 60


class Fault(Exception):
    """What is wrong with a case or its files, in words for a person, and in which line of the text; the key of SAID and its values,
    where it has one."""

    def __init__(self, text: str, line: Optional[int] = None, key: Optional[str] = None, values: Optional[dict] = None):
        super().__init__(f"line {line}: {text}" if line else text)
        self.text, self.line, self.key, self.values = text, line, key, values or {}

    def at(self, line: int) -> "Fault":
        """The same, in this line."""
        return Fault(self.text, line, self.key, self.values)


def fault(key: str, **values) -> Fault:
    """A fault of the text, by its key. What is quoted is cut where it is long."""
    values |= {name: quoted(values[name]) for name in ("word", "found") if name in values}
    return Fault(SAID[key].format(**values), key=key, values=values)


def quoted(words: str) -> str:
    return words if len(words) <= LONGEST_QUOTED else words[:LONGEST_QUOTED] + "…"


class Unread(Exception):
    """A line that is not of its form."""


@dataclass
class Saved:
    """A stopped collection, of which no word need be right. The token is its holder and its colour, the black boxes are bits,
    and a box is its status, cell, since and batch, as they are saved."""

    made: int
    form: int = FORM
    counts: dict[str, int] = field(default_factory=dict)
    token: Optional[tuple[int, int]] = None
    black: Optional[int] = None
    boxes: dict[int, list[int]] = field(default_factory=dict)
    tallies: dict[int, list[int]] = field(default_factory=dict)
    marks: dict[int, int] = field(default_factory=dict)
    runs: dict[int, list[tuple[int, int]]] = field(default_factory=dict)


@dataclass
class Case:
    """A store and an order, the references that come and go, and a stopped collection if there is one; pairs are (from, to) and
    (box, asked). The references have the subjects among them; `subjects` has their places there. `removed` has numbers. Of a case
    that was read as text, `lines` has for each of its `parts` the number of the line that told it."""

    index: Optional[int] = None
    sizes: list[int] = field(default_factory=list)
    references: list[tuple[int, int]] = field(default_factory=list)
    subjects: set[int] = field(default_factory=set)
    leases: list[int] = field(default_factory=list)
    settings: dict[str, int] = field(default_factory=dict)
    turns: list[tuple[int, int]] = field(default_factory=list)
    added: list[tuple[int, int]] = field(default_factory=list)
    removed: list[int] = field(default_factory=list)
    saved: Optional[Saved] = None
    lines: dict[str, list[int]] = field(default_factory=lambda: defaultdict(list), compare=False, repr=False)

    def parts(self) -> dict[str, list]:
        """What stands in the store and in the order, by the name of the kind of line: `lines` has the line of each."""
        once = {name: [value] for name, value in {"index": self.index, **self.settings}.items()}
        return once | {"object": self.sizes, "reference": self.references, "lease": self.leases, "turn": self.turns}


def number(word: str, limit: int) -> int:
    if not word.isascii() or not word.isdigit():
        raise fault("no-number", word=word)
    digits = word.lstrip("0") or "0"
    if len(digits) > 40:
        raise fault("above-digits", digits=len(digits), most=limit)
    value = int(digits)
    if value > limit:
        raise fault("above", value=value, most=limit)
    return value


def pair(one: str, other: str, limit: int) -> tuple[int, int]:
    return number(one, limit), number(other, limit)


def dealt(case: Case, *seed: int, cards: tuple[int, ...] = ()) -> list[tuple[int, int]]:
    """The turns of these cards, or of the words of a seed and so many rounds, as the library deals them."""
    if not DEAL.exists():
        raise fault("no-deal", program=str(DEAL.relative_to(TOP)))
    rounds = len(cards) if cards else seed[-1] if seed else 0
    if len(case.turns) + rounds * case.settings.get("boxes", 0) > MOST_DEALT:
        raise fault("most-dealt", most=f"{MOST_DEALT:,}")
    words = map(str, (case.settings.get("boxes", 0), *seed))
    done = subprocess.run([DEAL, *words], input=" ".join(map(str, cards)), capture_output=True, text=True)
    if done.returncode:
        raise Fault(done.stderr.strip()) if done.stderr.strip() else fault("deal-ended", program=DEAL.name, status=done.returncode)
    refusal = re.fullmatch(r"refusal (\d+)\n", done.stdout)
    if refusal:
        raise fault(NOT_DEALT.get(int(refusal[1]), "deal-refused"), program=DEAL.name, refusal=int(refusal[1]))
    turns = re.fullmatch(r"(?:turn \d+ \d+\n)*", done.stdout) and re.findall(r"turn (\d+) (\d+)\n", done.stdout)
    if turns is None or len(turns) != rounds * case.settings.get("boxes", 0):
        raise fault("deal-other", program=DEAL.name, rounds=rounds)
    return [(int(box), int(asked)) for box, asked in turns]


def stored(case: Case) -> list[tuple[int, int]]:
    """The references by their numbers, as the reader stores them: object by object, subjects the other way round."""
    ends = [(b, a) if at in case.subjects else (a, b) for at, (a, b) in enumerate(case.references)]
    return sorted(ends, key=lambda pair: pair[0])


def numbers_of(case: Case, ends: tuple[int, int], line: int) -> list[int]:
    """The numbers of all references with these ends."""
    numbers = [at for at, pair in enumerate(stored(case)) if pair == ends]
    if not numbers:
        raise fault("no-reference", source=ends[0], target=ends[1]).at(line)
    return numbers


@dataclass
class Draft:
    """A case while its lines are read. A reference that goes has a number, or ends whose numbers are known when all references are."""

    case: Case = field(default_factory=Case)
    removals: list[tuple[int, ...]] = field(default_factory=list)


def expect(due: bool) -> None:
    """The line is of its form."""
    if not due:
        raise Unread


def once(first: bool, word: str) -> None:
    """A line that a case has once is the first of its kind."""
    if not first:
        raise fault("twice", word=word)


def told(table: dict, word: str, at: int, value) -> None:
    """Takes the value in, if there is none yet."""
    if at in table:
        raise fault("told-twice", word=word, place=at)
    table[at] = value


def named(words: tuple[str, ...], names: tuple[str, ...]) -> tuple[str, ...]:
    """The words behind these names, one behind each."""
    expect(words[::2] == names)
    return words[1::2]


def code(word: str, names: tuple[str, ...]) -> int:
    """The place of the word among the names, or the number that it is."""
    if word in names:
        return names.index(word)
    if not word.isascii() or not word.isdigit():
        raise fault("no-code", word=word, names=", ".join(names))
    return number(word, WORD)


def take_index(draft: Draft, name: str, index: str) -> None:
    once(draft.case.index is None, name)
    draft.case.index = number(index, WORD)


def take_object(draft: Draft, _: str, size: str) -> None:
    draft.case.sizes.append(number(size, LONG))


def take_reference(draft: Draft, name: str, source: str, target: str) -> None:
    ends = pair(source, target, WORD)
    if name == "subject":
        draft.case.subjects.add(len(draft.case.references))
    draft.case.references.append(ends)


def take_lease(draft: Draft, _: str, lease: str) -> None:
    draft.case.leases.append(number(lease, WORD))


def take_setting(draft: Draft, name: str, value: str) -> None:
    once(name not in draft.case.settings, name)
    draft.case.settings[name] = number(value, SETTINGS[name])


def take_turn(draft: Draft, _: str, box: str, asked: str) -> None:
    draft.case.turns.append(pair(box, asked, BYTE))


def take_turns(draft: Draft, _: str, asked: str, colon: str, *boxes: str) -> None:
    expect(colon == ":")
    whom = number(asked, BYTE)
    draft.case.turns += [(number(box, BYTE), whom) for box in boxes]


def take_cards(draft: Draft, _: str, *cards: str) -> None:
    draft.case.turns += dealt(draft.case, cards=tuple(number(card, LAST_CARD) for card in cards))


def take_seed(draft: Draft, _: str, first: str, second: str, *rest: str) -> None:
    (rounds,) = named(rest, ("rounds",))
    draft.case.turns += dealt(draft.case, *pair(first, second, WORD), number(rounds, WORD))


def take_added(draft: Draft, _: str, source: str, target: str) -> None:
    draft.case.added.append(pair(source, target, WORD))


def take_removed(draft: Draft, _: str, *words: str) -> None:
    draft.removals.append(tuple(number(word, WORD) for word in words))


def take_saved(draft: Draft, name: str, made: str) -> None:
    once(draft.case.saved is None, name)
    draft.case.saved = Saved(number(made, WORD))


def take_form(saved: Saved, name: str, form: str) -> None:
    once(saved.form == FORM, name)
    saved.form = number(form, WORD)


def take_count(saved: Saved, _: str, name: str, count: str) -> None:
    if name not in COUNTS:
        raise fault("no-name", word=name, names=", ".join(COUNTS))
    once(name not in saved.counts, f"count {name}")
    saved.counts[name] = number(count, LONG)


def take_token(saved: Saved, name: str, holder: str, colour: str) -> None:
    once(saved.token is None, name)
    paint = code(colour, COLOURS)
    saved.token = (number(holder, WORD), paint)


def take_black(saved: Saved, name: str, *boxes: str) -> None:
    once(saved.black is None, name)
    saved.black = sum({1 << number(box, 31) for box in boxes})


def take_box(saved: Saved, name: str, box: str, status: str, *rest: str) -> None:
    asker, since, batch = named(rest, ("cell", "since", "batch"))
    at, doing = number(box, BYTE), code(status, STATUSES)
    cell = 0 if asker == "-" else number(asker, WORD - 1) + 1
    told(saved.boxes, name, at, [doing, cell, number(since, WORD), number(batch, WORD)])


def take_tally(saved: Saved, name: str, box: str, *rest: str) -> None:
    counts = named(rest, TALLY)
    told(saved.tallies, name, number(box, BYTE), [number(count, LONG) for count in counts])


def take_mark(saved: Saved, name: str, at: str, mark: str) -> None:
    told(saved.marks, name, *pair(at, mark, WORD))


def take_run(saved: Saved, _: str, box: str, first: str, end: str) -> None:
    saved.runs.setdefault(number(box, BYTE), []).append(pair(first, end, WORD))


# The kinds of lines by their first word: how many words stand behind it, at least and at most, its form, and what takes it in.
ANY = sys.maxsize
LINES = {
    "index": (1, 1, "index OBJECT", take_index),
    "object": (1, 1, "object SIZE", take_object),
    "reference": (2, 2, "reference FROM TO", take_reference),
    "subject": (2, 2, "subject FROM TO", take_reference),
    "lease": (1, 1, "lease OBJECT", take_lease),
    "boxes": (1, 1, "boxes W", take_setting),
    "batch": (1, 1, "batch D", take_setting),
    "cutoff": (1, 1, "cutoff K", take_setting),
    "turn": (2, 2, "turn BOX ASKED", take_turn),
    "turns": (2, ANY, "turns ASKED: BOX ...", take_turns),
    "cards": (1, ANY, "cards CARD ...", take_cards),
    "seed": (4, 4, "seed A B rounds N", take_seed),
    "add": (2, 2, "add FROM TO", take_added),
    "remove": (1, 2, "remove NUMBER | remove FROM TO", take_removed),
    "saved": (1, 1, "saved TURNS", take_saved),
}
# Those of a stopped collection.
SAVED_LINES = {
    "form": (1, 1, "form F", take_form),
    "count": (2, 2, "count NAME N", take_count),
    "token": (2, 2, "token BOX COLOUR", take_token),
    "black": (1, ANY, "black BOX ...", take_black),
    "box": (8, 8, "box BOX STATUS cell ASKER since S batch N", take_box),
    "tally": (9, 9, "tally BOX followed F won W lost L handed H", take_tally),
    "mark": (2, 2, "mark OBJECT MARK", take_mark),
    "run": (3, 3, "run BOX FIRST END", take_run),
}
# Lines that tell what another kind of line tells, too; those of turns tell several.
TOLD_BY = {"subject": "reference", "turns": "turn", "cards": "turn", "seed": "turn"}


def take_line(draft: Draft, name: str, *words: str) -> None:
    """Takes one line in."""
    if name not in LINES and name not in SAVED_LINES:
        raise fault("unknown", word=name, words=", ".join([*LINES, *SAVED_LINES]))
    if name in SAVED_LINES and draft.case.saved is None:
        raise fault("not-saved", word=name)
    least, most, _, take = LINES.get(name) or SAVED_LINES[name]
    expect(least <= len(words) <= most)
    take(draft if name in LINES else draft.case.saved, name, *words)


def lines_of(text: str) -> list[str]:
    """The lines of a text, whichever way they end, without a byte order mark."""
    return re.split("\r\n|\r|\n", text.removeprefix("\ufeff"))


def parse(text: str) -> Case:
    """The case that the text tells."""
    draft = Draft()
    case = draft.case
    for at, line in enumerate(lines_of(text), 1):
        words = line.split("#", 1)[0].replace(":", " : ").split()
        if not words:
            continue
        try:
            take_line(draft, *words)
        except Unread:
            form = (LINES.get(words[0]) or SAVED_LINES[words[0]])[2]
            raise fault("form", form=form, found=line.strip()).at(at) from None
        except Fault as wrong:
            raise wrong.at(at) from None
        name = TOLD_BY.get(words[0], words[0])
        case.lines[name] += [at] * (len(case.turns) - len(case.lines[name]) if name == "turn" else 1)
    if case.index is None:
        raise fault("no-line", word="index")
    for name in SETTINGS:
        if name not in case.settings:
            raise fault("no-line", word=name)
    for at, words in zip(case.lines["remove"], draft.removals):
        case.removed += words if len(words) == 1 else numbers_of(case, words, at)
    return case


def record(kind: int, contents: bytes) -> bytes:
    return struct.pack("<HH", LENGTHS[kind], kind) + contents


def store_bytes(case: Case) -> bytes:
    """store.cat"""
    header = record(HEADER, struct.pack("<III", len(case.sizes), len(case.references), case.index))
    objects = (record(OBJECT, struct.pack("<Q", size)) for size in case.sizes)
    references = (
        record(SUBJECT if at in case.subjects else REFERENCE, struct.pack("<II", *ends))
        for at, ends in enumerate(case.references)
    )
    leases = (record(LEASE, struct.pack("<I", lease)) for lease in case.leases)
    return b"".join([header, *objects, *references, *leases])


def order_bytes(case: Case) -> bytes:
    """order.run"""
    head = SETTINGS_FORMAT.pack(*(case.settings[name] for name in SETTINGS))
    return head + bytes(byte for turn in case.turns for byte in turn)


def update_bytes(case: Case) -> bytes:
    """store.update"""
    words = [len(case.added), len(case.removed), *(a for a, _ in case.added), *(b for _, b in case.added), *case.removed]
    return struct.pack(f"<{len(words)}I", *words)


def read_update(data: bytes) -> tuple[list[tuple[int, int]], list[int]]:
    """The references that come and the numbers of those that go, by the file."""
    if len(data) < 8:
        raise Fault(f"{UPDATE_NAME}: fewer than 8 bytes")
    come, go = struct.unpack_from("<II", data)
    if len(data) != 4 * (2 + 2 * come + go):
        raise Fault(f"{UPDATE_NAME}: {len(data)} bytes, where {come} references come and {go} go")
    words = struct.unpack_from(f"<{2 * come + go}I", data, 8)
    return list(zip(words[:come], words[come : 2 * come])), list(words[2 * come :])


def stretch_pairs(case: Case) -> int:
    """How many pairs of words each box has for its runs."""
    return len(case.sizes) + 2


# collection.saved: this, a version, the number of turns, the digests of store.cat and order.run, the saved words, and a
# digest of all that stands before it.
SAVED_HEAD = struct.Struct("<16sIQ32s32s")
SAVED_BEGINS = (b"kullneyra pause\n", 1)
DIGEST = 32


def digest(data: bytes) -> bytes:
    return hashlib.sha256(data).digest()


def saved_bytes(case: Case, store: bytes, order: bytes) -> bytes:
    """collection.saved, of these files"""
    saved, boxes, objects = case.saved, case.settings["boxes"], len(case.sizes)
    for told, most in ((saved.boxes, boxes), (saved.tallies, boxes), (saved.runs, boxes), (saved.marks, objects)):
        if any(at >= most for at in told):
            raise Fault(f"the stopped collection tells of {max(told)}, where there are {most}")
    parts = [SAVED_HEAD.pack(*SAVED_BEGINS, saved.made, digest(store), digest(order)), struct.pack("<I", saved.form)]
    parts.append(struct.pack("<6Q", *(saved.counts.get(name, 0) for name in COUNTS)))
    parts.append(struct.pack("<3I", *(saved.token or (0, 0)), saved.black or 0))
    parts += [struct.pack("<4I", *saved.boxes.get(box, [0] * 4)) for box in range(boxes)]
    parts += [struct.pack("<4Q", *saved.tallies.get(box, [0] * 4)) for box in range(boxes)]
    parts.append(struct.pack(f"<{objects}I", *(saved.marks.get(v, 0) for v in range(objects))))
    for box in range(boxes):
        runs = saved.runs.get(box, [])
        if len(runs) > stretch_pairs(case):
            raise Fault(f"box {box} has room for {stretch_pairs(case)} runs, not for {len(runs)}")
        parts += [struct.pack("<II", *run) for run in runs]
        parts.append(bytes(8 * (stretch_pairs(case) - len(runs))))
    parts.append(digest(b"".join(parts)))
    return b"".join(parts)


def read_saved(case: Case, data: bytes, store: bytes, order: bytes) -> Saved:
    """The stopped collection of this case, of these files, that the file holds; zeros are not told."""
    boxes, objects, pairs = case.settings["boxes"], len(case.sizes), stretch_pairs(case)
    # A pair of words for each place of a run; no native sizes, so nothing is padded.
    layout = struct.Struct(f"<I6Q3I{4 * boxes}I{4 * boxes}Q{objects}I{2 * pairs * boxes}I")
    size = SAVED_HEAD.size + layout.size + DIGEST
    if len(data) != size:
        raise Fault(f"collection.saved: {len(data)} bytes, where this store and these boxes have {size}")
    name, version, made, *digests = SAVED_HEAD.unpack_from(data)
    if (name, version) != SAVED_BEGINS or digest(data[:-DIGEST]) != data[-DIGEST:]:
        raise Fault("collection.saved: damaged, or of another version")
    if digests != [digest(store), digest(order)]:
        raise Fault("collection.saved belongs to another store.cat or order.run")
    words = iter(layout.unpack_from(data, SAVED_HEAD.size))

    def take(count: int) -> list[int]:
        return [next(words) for _ in range(count)]

    saved = Saved(made, *take(1))
    saved.counts = {name: count for name, count in zip(COUNTS, take(6)) if count}
    holder, colour, black = take(3)
    saved.token = (holder, colour) if holder or colour else None
    saved.black = black or None
    saved.boxes = {box: state for box in range(boxes) if any(state := take(4))}
    saved.tallies = {box: tally for box in range(boxes) if any(tally := take(4))}
    saved.marks = {v: mark for v, mark in enumerate(take(objects)) if mark}
    for box in range(boxes):
        stretch = take(2 * pairs)
        runs = list(zip(stretch[::2], stretch[1::2]))
        while runs and runs[-1] == (0, 0):
            runs.pop()
        if runs:
            saved.runs[box] = runs
    return saved


def records(data: bytes) -> Iterator[tuple[int, bytes]]:
    """The records of store.cat, as (kind, contents)."""
    at = 0
    while at < len(data):
        if len(data) - at < 4:
            raise Fault(f"store.cat: {len(data) - at} stray bytes at {at}")
        length, kind = struct.unpack_from("<HH", data, at)
        if length != LENGTHS.get(kind) or len(data) - at < length:
            raise Fault(f"store.cat: no record that can be shown at {at}: length {length}, kind {kind}")
        yield kind, data[at + 4 : at + length]
        at += length


def read(store: bytes, order: bytes) -> Case:
    """The case that the two files hold."""
    case = Case()
    counts = None
    for kind, contents in records(store):
        if kind == HEADER and counts is None:
            *counts, case.index = struct.unpack("<III", contents)
        elif kind == OBJECT and counts is not None and not case.references and not case.leases:
            case.sizes.append(*struct.unpack("<Q", contents))
        elif kind in (REFERENCE, SUBJECT) and counts is not None and not case.leases:
            if kind == SUBJECT:
                case.subjects.add(len(case.references))
            case.references.append(struct.unpack("<II", contents))
        elif kind == LEASE and counts is not None:
            case.leases.append(*struct.unpack("<I", contents))
        else:
            raise Fault(f"store.cat: a record of kind {kind} out of its place")
    if counts is None:
        raise Fault("store.cat: there is no header")
    if counts != [len(case.sizes), len(case.references)]:
        raise Fault("store.cat: the header promises other numbers of objects and references")
    if len(order) < SETTINGS_FORMAT.size:
        raise Fault(f"order.run: fewer than {SETTINGS_FORMAT.size} bytes")
    turns = order[SETTINGS_FORMAT.size :]
    if len(turns) % 2 == 1:
        raise Fault("order.run: half a turn at its end")
    case.settings = dict(zip(SETTINGS, SETTINGS_FORMAT.unpack_from(order)))
    case.turns = list(zip(turns[::2], turns[1::2]))
    return case


def owner(starts: set[int], number: int, mark: int) -> str:
    """Who claimed an object, by its mark; that of a start is 1, as of what box 0 claimed. An update names no box."""
    if mark == 0:
        return "nobody"
    if mark == REACHED:
        return "reached"
    return "start" if mark == 1 and number in starts else f"box {mark - 1}"


def owners(case: Case, marks: bytes) -> list[str]:
    """Who claimed each object."""
    if len(marks) != len(case.sizes):
        raise Fault(f"{len(marks)} marks for {len(case.sizes)} objects")
    starts = {case.index, *case.leases}
    return [owner(starts, number, mark) for number, mark in enumerate(marks)]


def show(case: Case, marks: Optional[bytes] = None) -> str:
    """The case as text, which `parse` reads back; owners, and the ends of references that go, are comments."""
    names = [""] * len(case.sizes) if marks is None else [f" # {name}" for name in owners(case, marks)]
    lines = [f"index {case.index}"]
    lines += [f"object {size}{name}" for size, name in zip(case.sizes, names)]
    words = ("subject" if at in case.subjects else "reference" for at in range(len(case.references)))
    lines += [f"{word} {a} {b}" for word, (a, b) in zip(words, case.references)]
    lines += [f"lease {lease}" for lease in case.leases]
    lines += [f"{name} {case.settings[name]}" for name in SETTINGS]
    lines += [f"turn {box} {asked}" for box, asked in case.turns]
    ends = [f"from {a} to {b}" for a, b in stored(case)] if case.removed else []
    lines += [f"remove {at} # {ends[at] if at < len(ends) else 'no reference'}" for at in case.removed]
    lines += [f"add {a} {b}" for a, b in case.added]
    lines += show_saved(case.saved) if case.saved else []
    return "\n".join(lines) + "\n"


def show_saved(saved: Saved) -> list[str]:
    """The lines of a stopped collection."""
    lines = [f"saved {saved.made}"] + ([f"form {saved.form}"] if saved.form != FORM else [])
    lines += [f"count {name} {count}" for name, count in saved.counts.items()]
    if saved.token:
        holder, colour = saved.token
        lines.append(f"token {holder} {COLOURS[colour] if colour < len(COLOURS) else colour}")
    if saved.black:
        lines.append("black " + " ".join(str(box) for box in range(32) if saved.black >> box & 1))
    for box, (code, cell, since, batch) in saved.boxes.items():
        status = STATUSES[code] if code < len(STATUSES) else code
        lines.append(f"box {box} {status} cell {cell - 1 if cell else '-'} since {since} batch {batch}")
    for box, tally in saved.tallies.items():
        lines.append(" ".join([f"tally {box}", *(f"{name} {count}" for name, count in zip(TALLY, tally))]))
    lines += [f"mark {v} {mark}" for v, mark in saved.marks.items()]
    return lines + [f"run {box} {first} {end}" for box, runs in saved.runs.items() for first, end in runs]


def text_of(data: bytes) -> str:
    """The text of a case."""
    try:
        return data.decode("utf-8")
    except UnicodeDecodeError as wrong:
        raise fault("not-utf8", at=wrong.start) from None


def load_text(path: Path) -> Case:
    """The case in a text file, or in standard input."""
    return parse(text_of(sys.stdin.buffer.read() if str(path) == "-" else path.read_bytes()))


def belongs(path: Path, store: bytes, order: bytes) -> bool:
    """Whether this is a stopped collection of these files, by what it says of them."""
    head = path.read_bytes()[: SAVED_HEAD.size]
    return len(head) == SAVED_HEAD.size and SAVED_HEAD.unpack(head)[3:] == (digest(store), digest(order))


def save(case: Case, folder: Path) -> list[str]:
    """Writes the files; the folder is made if it is not there. An update of an earlier case does not stay, nor a stopped collection
    of another store or order: the names of those that went. What cannot be written whole leaves the files of before."""
    store, order = store_bytes(case), order_bytes(case)
    files = {"store.cat": store, "order.run": order}
    if case.added or case.removed:
        files[UPDATE_NAME] = update_bytes(case)
    if case.saved:
        files[SAVED_NAME] = saved_bytes(case, store, order)
    folder.mkdir(parents=True, exist_ok=True)
    beside = {name: folder / f"{name}.new" for name in files}
    stale = [name for name in (UPDATE_NAME, SAVED_NAME) if name not in files and (folder / name).is_file()]
    if SAVED_NAME in stale and belongs(folder / SAVED_NAME, store, order):
        stale.remove(SAVED_NAME)
    try:
        for name, data in files.items():
            beside[name].write_bytes(data)
        for name in stale:
            (folder / name).unlink()
        for name, path in beside.items():
            path.replace(folder / name)
    finally:
        for path in beside.values():
            path.unlink(missing_ok=True)
    return stale


def load(folder: Path) -> Case:
    """The case in the files of a folder."""
    store, order = (folder / "store.cat").read_bytes(), (folder / "order.run").read_bytes()
    case = read(store, order)
    if (folder / UPDATE_NAME).exists():
        case.added, case.removed = read_update((folder / UPDATE_NAME).read_bytes())
    if (folder / SAVED_NAME).exists():
        case.saved = read_saved(case, (folder / SAVED_NAME).read_bytes(), store, order)
    return case


# What the program refuses, by number: the kinds of lines in the order in which they are looked at, and what is wrong with one.
LARGEST_SIZE, MOST_BOXES, MOST_LEASES = 1_099_511_627_776, 16, 256
TOLD_OF = {4: ("object", "reference"), 5: ("index", "reference", "lease"), 6: ("object",), 8: tuple(SETTINGS), 9: ("turn",), 13: ("lease",)}


def suspect(one: Case, number: int) -> Optional[tuple[str, int]]:
    """Which line causes this refusal, where one does: its kind, and its place among those. A hint: the library decides."""
    objects, boxes = len(one.sizes), one.settings["boxes"]
    no_object = lambda v: v >= objects
    wrong = {
        ("index", 5): no_object, ("reference", 5): lambda ends: no_object(max(ends)), ("lease", 5): no_object,
        ("object", 6): lambda size: size > LARGEST_SIZE,
        ("boxes", 8): lambda v: not 1 <= v <= MOST_BOXES, ("batch", 8): lambda v: v == 0, ("cutoff", 8): lambda v: v == 0,
        ("turn", 9): lambda turn: turn[0] >= boxes,
    }
    if number == 13:
        return ("lease", MOST_LEASES) if len(one.leases) > MOST_LEASES else None
    for name in TOLD_OF.get(number, ()):
        test = wrong.get((name, number), lambda _: False)
        for at, part in enumerate(one.parts()[name]):
            if test(part):
                return name, at
    return None


def explained(number: int, folder: Optional[Path] = None) -> list[str]:
    """What a refusal means and where to look, as lines; of the files in a folder, the part that causes it, where one does."""
    import refusals  # only here: a case is read and made without the documents beside it

    try:
        lines = refusals.explain(TOP, number)
    except ValueError as wrong:
        raise Fault(str(wrong)) from None
    kinds = [word for name in TOLD_OF.get(number, ()) for word in (name, *(other for other, of in TOLD_BY.items() if of == name))]
    if kinds:
        lines.append(f"lines of a case that tell it: {', '.join(kinds)}")
    if folder is not None:
        try:
            one = load(folder)
            found = suspect(one, number)
        except (Fault, OSError):
            found = None  # files that cannot be shown: the number is all there is
        if found:
            name, at = found
            part = one.parts()[name][at]
            word = "subject" if name == "reference" and at in one.subjects else name
            lines.append(f"here: {' '.join(map(str, (word, *(part if isinstance(part, tuple) else (part,)))))}, number {at} of its kind, from 0")
    return lines


def refusal_in(output: str) -> Optional[int]:
    """The number of the refusal that the program printed, if it did."""
    found = re.fullmatch(r"refusal (\d{1,9})", (output.splitlines() or [""])[-1])
    return int(found[1]) if found else None


def run(folder: Path) -> int:
    """Runs the program on the files of a folder. Its output is passed on, and what a refusal means is said beside it."""
    if not COLLECT.exists():
        raise Fault(f"{COLLECT.relative_to(TOP)} is not there: make run proves and builds it")
    done = subprocess.run([COLLECT], cwd=folder, stdout=subprocess.PIPE, text=True)
    sys.stdout.write(done.stdout)
    sys.stdout.flush()
    if done.returncode < 0:
        raise Fault(f"{COLLECT.name} was ended by signal {-done.returncode}")
    refusal = refusal_in(done.stdout)
    if refusal is not None:
        tell_of(refusal, folder)
    return done.returncode


def tell_of(refusal: int, folder: Optional[Path] = None, to=None) -> None:
    first, *rest = explained(refusal, folder)
    lines = [first, *(textwrap.fill(line, 118, initial_indent="  ", subsequent_indent="    ", break_long_words=False) for line in rest)]
    print("\n".join(lines), file=to or sys.stderr)


def explain(word: Optional[str]) -> int:
    """Says what a refusal means: that number, or the one that the last line of standard input has."""
    if word is not None:
        tell_of(number(word, WORD), to=sys.stdout)
        return 0
    output = sys.stdin.read()
    sys.stdout.write(output)
    sys.stdout.flush()
    refusal = refusal_in(output)
    if refusal is not None:
        tell_of(refusal)
    return 0


class Parser(argparse.ArgumentParser):
    """Tells the whole format where it is called wrongly."""

    def error(self, message):
        sys.stderr.write(f"{__doc__}\ncase.py: {message}\n")
        sys.exit(2)


def arguments(words: list[str]) -> argparse.Namespace:
    parser = Parser(prog="case.py", description=__doc__, formatter_class=argparse.RawDescriptionHelpFormatter)
    commands = parser.add_subparsers(dest="command", metavar="make | show | run | explain", required=True)
    make = commands.add_parser("make", help="writes store.cat and order.run, store.update and collection.saved")
    make.add_argument("case", type=Path, metavar="CASE.txt")
    make.add_argument("folder", type=Path, metavar="FOLDER")
    shown = commands.add_parser("show", help="prints the case that the files hold")
    shown.add_argument("folder", type=Path, metavar="FOLDER")
    shown.add_argument("--marks", type=Path, metavar="M", help="the marks that a marking or an update of the case left")
    runs = commands.add_parser("run", help="runs the program on the files, and says what a refusal means")
    runs.add_argument("folder", type=Path, metavar="FOLDER")
    explains = commands.add_parser("explain", help="says what a refusal means, and where to look")
    explains.add_argument("number", nargs="?", metavar="N")
    return parser.parse_args(words)


def main(words: list[str]) -> int:
    chosen = arguments(words)
    try:
        if chosen.command == "run":
            return run(chosen.folder)
        if chosen.command == "explain":
            return explain(chosen.number)
        if chosen.command == "make":
            stale = save(load_text(chosen.case), chosen.folder)
            if SAVED_NAME in stale:
                sys.stderr.write(f"case.py: {chosen.folder / SAVED_NAME} was of another store or order, and is removed\n")
        else:
            marks = chosen.marks.read_bytes() if chosen.marks else None
            sys.stdout.write(show(load(chosen.folder), marks))
    except (Fault, OSError) as wrong:
        sys.stderr.write(f"case.py: {wrong}\n")
        return 1
    return 0


if __name__ == "__main__":
    sys.exit(main(sys.argv[1:]))
