"""Tests of tools/case.py: both ways, and what it refuses."""

import io
import random
import shutil
import struct
import subprocess
import sys
import tempfile
import unittest
from itertools import permutations
from pathlib import Path
from unittest.mock import patch

TOP = Path(__file__).resolve().parents[2]
sys.path.insert(0, str(TOP / "tools"))
import case  # noqa: E402

SAMPLE = TOP / "samples" / "a.txt"
FOR_BOXES = "cards are for 1 to 6 boxes, whose number stands before them"

# Cards and seeds as SPECIFICATION 9 and 10 tell them, worked out here and not by the library.
DECK = list(permutations(range(6)))


def turns_of(boxes, cards):
    """A round for each card: the boxes in its order, each naming the next, the last the first."""
    rounds = [[box for box in DECK[card] if box < boxes] for card in cards]
    return [turn for order in rounds for turn in zip(order, order[1:] + order[:1])]


def drawn(first, second, rounds):
    """The cards that so many draws from a seed give."""
    for _ in range(rounds):
        first ^= first << 13 & 0xFFFFFFFF
        first ^= first >> 17
        first ^= first << 5 & 0xFFFFFFFF
        second = (second + 362_437) % 2**32
        yield (first + second) % 2**32 % 720


def some_case(rng):
    references = rng.randrange(6)
    return case.Case(
        index=rng.randrange(10),
        sizes=[rng.randrange(2**64) for _ in range(rng.randrange(6))],
        references=[(rng.randrange(2**32), rng.randrange(9)) for _ in range(references)],
        subjects={at for at in range(references) if rng.randrange(2)},
        leases=[rng.randrange(2**32) for _ in range(rng.randrange(4))],
        settings={"boxes": rng.randrange(256), "batch": rng.randrange(65536), "cutoff": rng.randrange(65536)},
        turns=[(rng.randrange(256), rng.randrange(256)) for _ in range(rng.randrange(6))],
    )


def some_saved(rng, boxes, objects):
    """A stopped collection with any words, told as `read_saved` tells it: without zeros."""
    some = lambda count: [k for k in range(count) if rng.random() < 0.5]
    above = lambda most: rng.randrange(1, most)
    return case.Saved(
        made=rng.randrange(2**32),
        form=rng.choice([2, 2, 1, 2**32 - 1]),
        token=rng.choice([None, (rng.randrange(2**32), above(4))]),
        black=rng.choice([None, above(2**32)]),
        counts={name: above(2**64) for name in case.COUNTS if rng.random() < 0.5},
        boxes={box: [rng.randrange(10), rng.randrange(2**32), rng.randrange(9), above(9)] for box in some(boxes)},
        tallies={box: [rng.randrange(2**64), 0, rng.randrange(9), above(9)] for box in some(boxes)},
        marks={v: above(2**32) for v in some(objects)},
        runs={box: [(0, 0)] * rng.randrange(2) + [(rng.randrange(2**32), above(9))] for box in some(boxes)},
    )


class Cases(unittest.TestCase):
    def test_sample_bytes(self):
        sample = case.load_text(SAMPLE)
        store = case.store_bytes(sample)
        self.assertEqual(len(store), 16 + 6 * 12 + 6 * 12)
        self.assertEqual(store[:16].hex(), "10000100060000000600000000000000")
        self.assertEqual(store[16:28].hex(), "0c0002006400000000000000")
        self.assertEqual(store[-12:].hex(), "0c0003000500000004000000")
        leased = case.store_bytes(case.parse(SAMPLE.read_text() + "lease 5\n"))
        self.assertEqual((leased[:-8], leased[-8:].hex()), (store, "0800040005000000"))
        signed = case.store_bytes(case.parse(SAMPLE.read_text() + "subject 5 1\n"))
        self.assertEqual((signed[16:-12], signed[-12:].hex()), (store[16:], "0c0005000500000001000000"))
        self.assertEqual(signed[:16].hex(), "10000100060000000700000000000000")
        order = case.order_bytes(sample)
        self.assertEqual(order[:5].hex(), "0201000100")
        self.assertEqual(len(order), 5 + 2 * 20)
        self.assertEqual(order[5::2], bytes([0, 1, 0, 0, 0, 1, 1, 0, 1, 0, 0, 0, 1, 0, 1, 1, 0, 1, 0, 1]))
        self.assertEqual(set(order[6::2]), {0})

    def test_program_data(self):
        sample = case.load_text(SAMPLE)
        data = TOP / "crates" / "collect" / "data"
        self.assertEqual((data / "store.cat").read_bytes(), case.store_bytes(sample))
        self.assertEqual((data / "order.run").read_bytes(), case.order_bytes(sample))

    def test_there_and_back(self):
        rng = random.Random(7)
        for _ in range(500):
            made = some_case(rng)
            back = case.read(case.store_bytes(made), case.order_bytes(made))
            self.assertEqual(back, made)
            self.assertEqual(case.parse(case.show(made)), made)

    def test_saved_there_and_back(self):
        rng = random.Random(6)
        for _ in range(300):
            made = some_case(rng)
            made.settings["boxes"] = rng.randrange(5)
            made.saved = some_saved(rng, made.settings["boxes"], len(made.sizes))
            data = case.saved_bytes(made, b"store", b"order")
            self.assertEqual(case.read_saved(made, data, b"store", b"order"), made.saved)
            self.assertEqual(case.parse(case.show(made)), made)
            at = rng.randrange(len(data))
            changed = data[:at] + bytes([data[at] ^ 1]) + data[at + 1 :]
            for damaged in (data[:-1], data + b"\0", b"", changed):
                with self.assertRaises(case.Fault):
                    case.read_saved(made, damaged, b"store", b"order")
            for files in ((b"another", b"order"), (b"store", b"another")):
                with self.assertRaises(case.Fault):
                    case.read_saved(made, data, *files)

    def test_saved_words(self):
        """Case B: what the first five turns of the sample leave, word by word."""
        lines = """
            saved 5
            count live 2
            count followed 1
            count handed 1
            count moved 5
            count carrying 2
            black 0
            box 0 look cell - since 0 batch 1
            box 1 given cell - since 0 batch 0
            tally 0 followed 1 won 1 lost 0 handed 1
            mark 0 1
            mark 1 1
            run 0 1 2
            run 1 2 3
        """
        sample = case.parse(SAMPLE.read_text() + lines)
        words = [2, 2, 0, 1, 0, 1, 0, 0, 0, 5, 0, 2, 0, 0, 0, 1, 6, 0, 0, 1, 4, 0, 0, 0, 1, 0, 1, 0, 0, 0, 1, 0] + [0] * 8
        words += [1, 1, 0, 0, 0, 0, 1, 2] + [0] * 14 + [2, 3] + [0] * 14
        head = struct.pack("<16sIQ", b"kullneyra pause\n", 1, 5) + case.digest(b"store") + case.digest(b"order")
        data = head + struct.pack(f"<{len(words)}I", *words)
        self.assertEqual(case.saved_bytes(sample, b"store", b"order"), data + case.digest(data))
        self.assertEqual(case.show_saved(sample.saved), [line.strip() for line in lines.strip().splitlines()])

    def test_saved_refused(self):
        head = SAMPLE.read_text() + "saved 0\n"
        unread = """
            saved 0
            count dead 1
            box 0 idle
            box 0 busy cell - since 0 batch 0
            box 0 idle cell - since 0
            box 0 idle cell 4294967295 since 0 batch 0
            tally 0 followed 1 won 1 lost 1
            run 0 1
            run 256 0 1
            token 1
            token 1 red
            black
            black 32
        """
        for line, text in {
            "count dead 1": "'dead' is none of these: live, followed, handed, refused, moved, carrying",
            "box 0 busy cell - since 0 batch 0": "'busy' is none of these and no decimal number: " + ", ".join(case.STATUSES),
            "token 1 red": "'red' is none of these and no decimal number: white, black",
            "box 0 idle": "expected: box BOX STATUS cell ASKER since S batch N; found: box 0 idle",
            "mark 0 1\nmark 0 2": "mark 0 is told a second time",
            "count live 1\ncount live 1": "a second line 'count live', where a case has one",
        }.items():
            with self.assertRaises(case.Fault, msg=line) as caught:
                case.parse(head + line + "\n")
            self.assertEqual(caught.exception.text, text)
        twice = ("count live 1\n" * 2, "token 0 white\n" * 2, "black 1\n" * 2, "mark 0 1\n" * 2, "box 1 idle cell - since 0 batch 0\n" * 2)
        for line in (*unread.strip().splitlines(), *twice):
            with self.assertRaises(case.Fault, msg=line):
                case.parse(head + line + "\n")
        with self.assertRaises(case.Fault):
            case.parse(SAMPLE.read_text() + "mark 0 1\n")
        beyond = ("box 2 idle cell - since 0 batch 0", "tally 2 followed 0 won 0 lost 0 handed 0", "run 2 0 1", "mark 6 1")
        for line in (*beyond, "run 0 0 1\n" * 9):
            with self.assertRaises(case.Fault, msg=line):
                case.saved_bytes(case.parse(head + line + "\n"), b"", b"")

    def test_update_there_and_back(self):
        rng = random.Random(12)
        some = lambda: rng.choice([rng.randrange(9), rng.randrange(2**32)])
        with tempfile.TemporaryDirectory() as work:
            for _ in range(300):
                made = some_case(rng)
                made.added = [(some(), some()) for _ in range(rng.randrange(5))]
                made.removed = [some() for _ in range(rng.randrange(5))]
                self.assertEqual(case.read_update(case.update_bytes(made)), (made.added, made.removed))
                self.assertEqual(case.parse(case.show(made)), made)
                # In one folder, case after case: of an earlier one nothing is left.
                case.save(made, Path(work))
                self.assertEqual(case.load(Path(work)), made)
                self.assertEqual((Path(work) / case.UPDATE_NAME).exists(), bool(made.added or made.removed))

    def test_update_words(self):
        """The examples of SPECIFICATION 12: the words, the lines, and the same case by the ends of what goes."""
        head = SAMPLE.read_text()
        made = case.parse(head + "add 4 1\nadd 3 5\nremove 3\nremove 1\nremove 3\n")
        words = [2, 3, 4, 3, 1, 5, 3, 1, 3]
        self.assertEqual(case.update_bytes(made), struct.pack("<9I", *words))
        lines = case.show(made).splitlines()
        goes = ["remove 3 # from 2 to 3", "remove 1 # from 0 to 2", "remove 3 # from 2 to 3"]
        self.assertEqual(lines[-5:], [*goes, "add 4 1", "add 3 5"])
        self.assertEqual(case.store_bytes(made), case.store_bytes(case.parse(head)))
        self.assertEqual(case.parse("remove 2 3\nremove 0 2\nremove 2 3\nadd 4 1\nadd 3 5\n" + head), made)

    def test_update_numbers(self):
        """Numbers are those of the stored references: by object, in catalogue order, subjects the other way round."""
        references = "reference 2 1\nreference 0 2\nsubject 1 0\nreference 2 0\nreference 0 2\nsubject 2 2\n"
        head = "index 0\nobject 1\nobject 1\nobject 1\nboxes 1\nbatch 1\ncutoff 1\n" + references
        by_number = [(0, 2), (0, 1), (0, 2), (2, 1), (2, 0), (2, 2)]
        self.assertEqual(case.stored(case.parse(head)), by_number)
        for ends, numbers in (((0, 2), [0, 2]), ((0, 1), [1]), ((2, 1), [3]), ((2, 0), [4]), ((2, 2), [5])):
            self.assertEqual(case.parse(head + "remove {} {}\n".format(*ends)).removed, numbers)
        beyond = case.parse(head + "remove 5\nremove 6\n")
        self.assertEqual(case.show(beyond).splitlines()[-2:], ["remove 5 # from 2 to 2", "remove 6 # no reference"])
        signed = SAMPLE.read_text().replace("reference 5 4", "subject 4 0")
        self.assertEqual([to for _, to in case.stored(case.parse(signed))], [1, 2, 4, 3, 3, 0])

    def test_update_refused(self):
        head = SAMPLE.read_text()
        for line in ("add", "add 1", "add 1 2 3", "add x 1", "add 4294967296 0", "add 0 -1", "remove", "remove 1 2 3", "remove x", "remove 4294967296"):
            with self.assertRaisesRegex(case.Fault, "^line 19: .*(expected: (add|remove) |is not a decimal number|is above)", msg=line):
                case.parse(head + line + "\n")
        with self.assertRaisesRegex(case.Fault, "^line 20: no reference leads from 4 to 5$"):
            case.parse(head + "add 4 5\nremove 4 5\n")
        good = case.update_bytes(case.parse(head + "add 4 1\nremove 3\n"))
        for bad in (b"", good[:7], good[:-1], good[:-4], good + bytes(4), good[:4] + b"\2" + good[5:], b"\2" + good[1:]):
            with self.assertRaises(case.Fault, msg=bad.hex()):
                case.read_update(bad)

    HEAD = "index 0\nobject 1\nbatch 1\ncutoff 1\n"

    def test_cards(self):
        made = case.parse(self.HEAD + "boxes 3\ncards 0 120\nturn 2 2\ncards 719\n")
        self.assertEqual(made.turns, [(0, 1), (1, 2), (2, 0), (1, 0), (0, 2), (2, 1), (2, 2), (2, 1), (1, 0), (0, 2)])
        self.assertEqual(case.parse(self.HEAD + "boxes 1\ncards 5\n").turns, [(0, 0)])
        self.assertEqual(len(case.parse(self.HEAD + "boxes 6\ncards 5\n").turns), 6)
        refused = {
            "cards 0\nboxes 2": (5, FOR_BOXES),
            "boxes 2\ncards": (6, "expected: cards CARD ...; found: cards"),
            "boxes 2\ncards 720": (6, "720 is above 719"),
            "boxes 2\ncards 0 x": (6, "'x' is not a decimal number"),
            **{f"boxes {boxes}\ncards 0": (6, FOR_BOXES) for boxes in (0, 7, 16, 17, 255)},
        }
        for lines, (line, text) in refused.items():
            with self.assertRaises(case.Fault, msg=lines) as caught:
                case.parse(self.HEAD + lines + "\n")
            self.assertEqual((caught.exception.line, caught.exception.text), (line, text))

    def test_every_card(self):
        everything = " ".join(map(str, range(720)))
        for boxes in range(1, 7):
            made = case.parse(self.HEAD + f"boxes {boxes}\ncards {everything}\n")
            self.assertEqual(made.turns, turns_of(boxes, range(720)))

    def test_seed(self):
        self.assertEqual(list(drawn(1, 0, 5)), [646, 603, 612, 243, 538])
        self.assertEqual(list(drawn(2463534242, 0, 5)), [152, 660, 671, 130, 394])
        self.assertEqual(list(drawn(2**32 - 1, 2**32 - 1, 5)), [99, 600, 257, 541, 489])
        rng = random.Random(9)
        some = [(1, 0), (2**32 - 1, 2**32 - 1), (7, 2**32 - 362_437)] + [(rng.randrange(1, 2**32), rng.randrange(2**32)) for _ in range(20)]
        for first, second in some:
            boxes, rounds = rng.randrange(1, 7), rng.randrange(60)
            made = case.parse(self.HEAD + f"boxes {boxes}\nseed {first} {second} rounds {rounds}\n")
            self.assertEqual(made.turns, turns_of(boxes, drawn(first, second, rounds)))
        head = self.HEAD + "boxes 4\n"
        self.assertEqual(case.parse(head + "seed 1 0 rounds 3\n"), case.parse(head + "cards 646 603 612\n"))
        self.assertEqual(case.parse(head + "seed 1 0 rounds 0\n").turns, [])
        refused = {
            "seed 0 1 rounds 1": "the first word of a seed is not 0",
            "seed 1 rounds 1": "expected: seed A B rounds N; found: seed 1 rounds 1",
            "seed 1 0 rounds": "expected: seed A B rounds N; found: seed 1 0 rounds",
            "seed 1 0 1": "expected: seed A B rounds N; found: seed 1 0 1",
            "seed 1 0 round 1": "expected: seed A B rounds N; found: seed 1 0 round 1",
            "seed 4294967296 0 rounds 1": "4294967296 is above 4294967295",
        }
        for line, text in refused.items():
            with self.assertRaises(case.Fault, msg=line) as caught:
                case.parse(head + line + "\n")
            self.assertEqual((caught.exception.line, caught.exception.text), (6, text))
        for boxes in (0, 7):
            with self.assertRaisesRegex(case.Fault, f"^line 6: {FOR_BOXES}$"):
                case.parse(self.HEAD + f"boxes {boxes}\nseed 1 0 rounds 1\n")

    def test_deck(self):
        printed = (TOP / "crates" / "deck" / "stdout").read_text()
        self.assertEqual(printed, "".join("".join(map(str, card)) + "\n" for card in DECK))

    def test_nothing_to_deal_with(self):
        """Without the library only cards and seeds are refused, and the command that helps is told."""
        with tempfile.TemporaryDirectory() as work:
            tool, text = Path(work) / "tools" / "case.py", Path(work) / "case.txt"
            tool.parent.mkdir()
            shutil.copy(TOP / "tools" / "case.py", tool)
            make = [sys.executable, tool, "make", text, Path(work) / "made"]
            for line in ("cards 5", "seed 1 0 rounds 1"):
                text.write_text(self.HEAD + "boxes 2\n" + line + "\n")
                done = subprocess.run(make, capture_output=True, text=True)
                told = "case.py: line 6: cards are dealt by target/course/deal, which is not there: make deal builds it\n"
                self.assertEqual((done.returncode, done.stdout, done.stderr), (1, "", told))
            text.write_text(SAMPLE.read_text())
            done = subprocess.run(make, capture_output=True, text=True)
            self.assertEqual((done.returncode, done.stdout, done.stderr), (0, "", ""))

    def test_dealt_otherwise(self):
        """A program that is killed, answers something else, or too few turns: told in a line, and the files of before stay."""
        with tempfile.TemporaryDirectory() as work:
            top = Path(work)
            tool, deal, text, made = top / "tools/case.py", top / "target/course/deal", top / "case.txt", top / "made"
            for path in (tool, deal):
                path.parent.mkdir(parents=True)
            shutil.copy(TOP / "tools" / "case.py", tool)
            make = [sys.executable, tool, "make", text, made]
            text.write_text(self.HEAD + "boxes 2\nturn 0 1\n")
            self.assertEqual(subprocess.run(make).returncode, 0)
            before = {path.name: path.read_bytes() for path in made.iterdir()}
            text.write_text(self.HEAD + "boxes 2\ncards 5\n")
            rounds = "deal does not answer with the turns of 1 rounds"
            for line, told in (
                ("kill -9 $$", "deal ended with status -9"),
                ("echo junk", rounds),
                ("echo turn 0 1", rounds),
                ("echo turn 0 x; echo turn 1 0", rounds),
                ("echo refusal 99", "deal answers the refusal 99"),
            ):
                deal.write_text(f"#!/bin/sh\n{line}\n")
                deal.chmod(0o755)
                done = subprocess.run(make, capture_output=True, text=True)
                self.assertEqual((done.returncode, done.stderr), (1, f"case.py: line 6: {told}\n"))
                self.assertEqual({path.name: path.read_bytes() for path in made.iterdir()}, before)

    def test_not_written_whole(self):
        """A file that cannot be written leaves those of before, and nothing beside them."""
        with tempfile.TemporaryDirectory() as work:
            folder = Path(work) / "made"
            case.save(case.parse(SAMPLE.read_text()), folder)
            before = {path.name: path.read_bytes() for path in folder.iterdir()}
            (folder / "order.run.new").mkdir()
            with self.assertRaises(OSError):
                case.save(case.parse(self.HEAD + "boxes 2\nturn 0 1\n"), folder)
            (folder / "order.run.new").rmdir()
            self.assertEqual({path.name: path.read_bytes() for path in folder.iterdir()}, before)

    def test_dealing_by_hand(self):
        """The program itself: turns as lines of a case, a refusal, and words that it cannot read."""
        def deal(*words, cards=""):
            done = subprocess.run([case.DEAL, *words], input=cards, capture_output=True, text=True)
            return done.returncode, done.stdout, done.stderr

        self.assertEqual(deal("2", cards=" 0\n719 "), (0, "turn 0 1\nturn 1 0\nturn 1 0\nturn 0 1\n", ""))
        self.assertEqual(deal("2", "1", "0", "1"), (0, "turn 1 0\nturn 0 1\n", ""))
        self.assertEqual(deal("2"), (0, "", ""))
        self.assertEqual(deal("2", cards="720"), (0, "refusal 15\n", ""))
        self.assertEqual(deal("17", "0", "0", "1"), (0, "refusal 8\n", ""))
        self.assertEqual(deal("2", cards="4294967295"), (0, "refusal 15\n", ""))
        unread = (2, "", "deal: not a number of 32 bits\n")
        for cards in ("4294967296", "1 x", "-1", "1\u00b2"):
            self.assertEqual(deal("2", cards=cards), unread, cards)
        for words in (("x",), ("",), ("4294967296",), ("2", "1", "0", "1x"), ("2", "-1", "0", "1")):
            self.assertEqual(deal(*words), unread, words)
        for words in ((), ("2", "1"), ("2", "1", "0"), ("2", "1", "0", "1", "1")):
            self.assertEqual(deal(*words), (2, "", "deal: deal BOXES, or deal BOXES A B ROUNDS\n"), words)

    def test_dealing_that_fails(self):
        """What the program says is told, with the line."""
        with tempfile.TemporaryDirectory() as work:
            program = Path(work) / "deal"
            for script, told in (("echo 'deal: no memory' >&2; exit 2", "deal: no memory"), ("kill -9 $$", "deal ended with status -9")):
                program.write_text(f"#!/bin/sh\n{script}\n")
                program.chmod(0o755)
                with patch.object(case, "DEAL", program), self.assertRaisesRegex(case.Fault, f"^line 6: {told}$"):
                    case.parse(self.HEAD + "boxes 6\nseed 1 0 rounds 1\n")

    def test_owners(self):
        sample = case.load_text(SAMPLE)
        shown = case.show(sample, bytes([1, 1, 1, 2, 0, 0]))
        told = [line.split("# ")[1] for line in shown.splitlines() if line.startswith("object")]
        self.assertEqual(told, ["start", "box 0", "box 0", "box 1", "nobody", "nobody"])
        self.assertEqual(case.parse(shown), sample)
        self.assertEqual(case.owners(sample, bytes([255, 1, 16, 254, 255, 0])), ["reached", "box 0", "box 15", "box 253", "reached", "nobody"])
        for count in (0, 5, 7):
            with self.assertRaises(case.Fault):
                case.show(sample, bytes(count))

    def test_refused_texts(self):
        good = case.show(case.load_text(SAMPLE))
        at = len(good.splitlines()) + 1
        # What was expected is told: the form of the line, that it stands there once, or that another stands before it.
        forms = {
            "object SIZE": ("object", "object 1 2"),
            "reference FROM TO": ("reference 1",),
            "subject FROM TO": ("subject 1", "subject 1 2 3"),
            "lease OBJECT": ("lease", "lease 1 2"),
            "turn BOX ASKED": ("turn 1", "turn 1 2 3"),
            "turns ASKED: BOX ...": ("turns 0", "turns 0 1", "turns: 0 1"),
            "boxes W": ("boxes",),
            "index OBJECT": ("index",),
            "saved TURNS": ("saved", "saved 1 2"),
        }
        told = {line: f"expected: {form}; found: {line} # read" for form, lines in forms.items() for line in lines}
        told |= {line: f"a second line '{line.split()[0]}', where a case has one" for line in ("batch 1", "boxes 2", "cutoff 1", "index 0")}
        known = ", ".join([*case.LINES, *case.SAVED_LINES])
        told |= {f"{word} 1": f"'{word}' begins no line of a case; these do: {known}" for word in ("word", "Object", "w" * 60)}
        told["w" * 61] = f"'{'w' * 60}…' begins no line of a case; these do: {known}"
        of_saved = ("form 1", "count live 1", "token 0 white", "black 0", "box 0 idle cell - since 0 batch 0",
                    "tally 0 followed 0 won 0 lost 0 handed 0", "run 0 0 1", "mark 0 1")
        told |= {line: f"'{line.split()[0]}' tells of a stopped collection, so a line 'saved TURNS' stands before it" for line in of_saved}
        for line, text in told.items():
            with self.assertRaises(case.Fault, msg=line) as caught:
                case.parse(good + "  " + line + " # read\n")
            self.assertEqual(str(caught.exception), f"line {at}: {text}")
            self.assertEqual((caught.exception.line, caught.exception.text), (at, text))
            self.assertEqual(case.SAID[caught.exception.key].format(**caught.exception.values), text)
        wrong = {
            "object -1": "'-1' is not a decimal number",
            "object x": "'x' is not a decimal number",
            "object \u00b2": "'\u00b2' is not a decimal number",
            f"object {2**64}": f"{2**64} is above {2**64 - 1}",
            f"reference 0 {2**32}": f"{2**32} is above {2**32 - 1}",
            f"subject {2**32} 0": f"{2**32} is above {2**32 - 1}",
            f"lease {2**32}": f"{2**32} is above {2**32 - 1}",
            "turn 256 0": "256 is above 255",
            "turn 0 256": "256 is above 255",
            "turns 256: 0": "256 is above 255",
            "turns 0: 1 256": "256 is above 255",
            f"saved {2**32}": f"{2**32} is above {2**32 - 1}",
        }
        for line, text in wrong.items():
            with self.assertRaises(case.Fault, msg=line) as caught:
                case.parse(good + line + "\n")
            self.assertEqual((caught.exception.line, caught.exception.text), (at, text))
        for name, most in case.SETTINGS.items():
            without = "\n".join(line for line in good.splitlines() if not line.startswith(name)) + "\n"
            with self.assertRaisesRegex(case.Fault, f"^there is no {name} line$"):
                case.parse(without)
            with self.assertRaisesRegex(case.Fault, f"^line {at - 1}: {most + 1} is above {most}$"):
                case.parse(without + f"{name} {most + 1}\n")
        with self.assertRaisesRegex(case.Fault, "^there is no index line$"):
            case.parse(good.replace("index 0\n", ""))

    def test_text_as_other_systems_write_it(self):
        """A byte order mark, carriage returns, and standard input; lines are counted as an editor counts them."""
        text = SAMPLE.read_text()
        wanted = case.parse(text)
        for other in ("\ufeff" + text, text.replace("\n", "\r\n"), text.replace("\n", "\r"), text.rstrip("\n"), "\ufeff" + text.replace("\n", "\r\n")):
            self.assertEqual(case.parse(other), wanted)
            self.assertEqual(case.parse(other).lines, wanted.lines)
        self.assertEqual(case.parse("# a\u2028b\x0cc\x85d\n" + text).lines["index"], [wanted.lines["index"][0] + 1])
        with tempfile.TemporaryDirectory() as work:
            folder, path = Path(work) / "made", Path(work) / "case.txt"
            done = self.command("make", "-", folder, given="\ufeff" + text.replace("\n", "\r\n"))
            self.assertEqual((done.returncode, done.stdout, done.stderr), (0, "", ""))
            self.assertEqual(case.load(folder), wanted)
            done = self.command("make", "-", folder, given=text + "turn\r\n")
            told = f"case.py: line {len(text.splitlines()) + 1}: expected: turn BOX ASKED; found: turn\n"
            self.assertEqual((done.returncode, done.stderr), (1, told))
            path.write_bytes(b"index 0\n# \xff\n")
            done = self.command("make", path, folder)
            self.assertEqual((done.returncode, done.stderr), (1, "case.py: the case is not text in UTF-8, from byte 10 on\n"))

    def test_stale_collection(self):
        """A stopped collection of another store or order goes, and this is said; one of these very files stays."""
        stopped = SAMPLE.read_text() + "saved 5\ncount live 2\n"
        with tempfile.TemporaryDirectory() as work:
            folder, path = Path(work), Path(work) / "case.txt"
            kept = folder / case.SAVED_NAME
            for text, stays in ((SAMPLE.read_text(), True), (SAMPLE.read_text() + "turn 0 1\n", False), (SAMPLE.read_text().replace("600", "601"), False)):
                case.save(case.parse(stopped), folder)
                before = kept.read_bytes()
                path.write_text(text)
                done = self.command("make", path, folder)
                told = "" if stays else f"case.py: {kept} was of another store or order, and is removed\n"
                self.assertEqual((done.returncode, done.stdout, done.stderr), (0, "", told))
                self.assertEqual(kept.read_bytes() if kept.exists() else None, before if stays else None)
                self.assertEqual(case.load(folder), case.parse(stopped if stays else text))
            # What is no such file is as good as another's.
            kept.write_bytes(b"half")
            self.assertEqual(case.save(case.parse(SAMPLE.read_text()), folder), [case.SAVED_NAME])

    def test_suspects(self):
        """The line that a refusal is about."""
        text = SAMPLE.read_text()
        for old, new, refusal, found in (
            ("index 0", "index 6", 5, ("index", 0)),
            ("reference 2 3", "subject 6 3", 5, ("reference", 3)),
            ("boxes 2", "lease 1\nlease 6\nboxes 2", 5, ("lease", 1)),
            ("object 600", "object 1099511627777", 6, ("object", 5)),
            ("cutoff 1", "cutoff 0", 8, ("cutoff", 0)),
            ("boxes 2", "boxes 1", 9, ("turn", 1)),
            ("boxes 2", "lease 1\n" * 257 + "boxes 2", 13, ("lease", 256)),
            ("boxes 2", "boxes 2", 5, None),
            ("boxes 2", "boxes 2", 13, None),
            ("boxes 2", "boxes 2", 99, None),
        ):
            self.assertEqual(case.suspect(case.parse(text.replace(old, new)), refusal), found, new)

    def test_turns(self):
        """A colon parts the box that is asked from those that ask, with or without spaces."""
        for line in ("turns 5: 0 1", "turns 5 : 0 1", "turns 5:0 1"):
            self.assertEqual(case.parse(self.HEAD + "boxes 2\n" + line).turns, [(0, 5), (1, 5)])
        self.assertEqual(case.parse(self.HEAD + "boxes 2\nturns 5:").turns, [])

    def test_lines(self):
        """Each part knows the line that told it."""
        text = "# parts\nindex 0\nobject 1\n\nobject 2\nboxes 2\nsubject 0 1\nlease 1\nreference 0 1\nlease 0\nturns 1: 0 1 0\nbatch 3\n"
        text += "cards 0 719\nturn 1 0\ncutoff 4\nseed 1 0 rounds 1\nobject 3\nremove 0 # by number\nremove 1 0\n"
        made = case.parse(text)
        lines = {
            "index": [2],
            "object": [3, 5, 17],
            "boxes": [6],
            "batch": [12],
            "cutoff": [15],
            "reference": [7, 9],
            "lease": [8, 10],
            "turn": [11] * 3 + [13] * 4 + [14] + [16] * 2,
            "remove": [18, 19],
        }
        self.assertEqual(made.lines, lines)
        self.assertEqual({name: len(part) for name, part in made.parts().items()}, {name: len(at) for name, at in lines.items() if name != "remove"})
        self.assertEqual(case.read(case.store_bytes(made), case.order_bytes(made)).lines, {})

    def test_refused_files(self):
        sample = case.load_text(SAMPLE)
        store, order = case.store_bytes(sample), case.order_bytes(sample)
        lease = case.record(case.LEASE, bytes(4))
        subject = case.record(case.SUBJECT, bytes(8))
        misplaced = (lease + store, store[:16] + lease + store[16:], store[:-12] + lease + store[-12:])
        misplaced += (subject + store, store[:16] + subject + store[16:], store + subject, store + lease + subject)
        for bad in (b"", store[:-1], store + b"\0", store + store[16:28], store[16:], store[:16] + store[28:], *misplaced):
            with self.assertRaises(case.Fault):
                case.read(bad, order)
        for bad in (b"", order[:4], order[:-1]):
            with self.assertRaises(case.Fault):
                case.read(store, bad)

    def command(self, *words, given=""):
        tool = [sys.executable, TOP / "tools" / "case.py", *words]
        done = subprocess.run(tool, capture_output=True, input=given.encode())
        return subprocess.CompletedProcess(tool, done.returncode, done.stdout.decode(), done.stderr.decode())

    def test_explain(self):
        """Every refusal: its words, the program's check and section, the calls, and the lines of a case."""
        told = self.command("explain", "9")
        self.assertEqual((told.returncode, told.stderr), (0, ""))
        self.assertEqual(told.stdout.splitlines(), [
            "refusal 9: half an entry at the schedule's end, or one for a worker that is not there",
            "  The schedule has an odd number of bytes, or one of its entries is for worker W or above. (docs/SPECIFICATION.md, 2",
            "    Refusals)",
            "  collect answers it by check 8, the schedule (docs/SPECIFICATION.md, 7 The program)",
            "  calls that answer it: mark, begin, resume",
            "  lines of a case that tell it: turn, turns, cards, seed",
        ])
        by_program = {1, 2, 3, 4, 5, 6, 8, 9, 11, 12, 13}
        for number in range(1, 20):
            lines = case.explained(number)
            self.assertTrue(lines[0].startswith(f"refusal {number}: ") and len(lines[0]) > 20, lines)
            self.assertRegex(lines[1], r"^[A-Zn].{20,} \(docs/SPECIFICATION.md, 2 Refusals\)$")
            self.assertEqual("collect answers it by check " in lines[2], number in by_program, lines)
            self.assertEqual(any("calls that answer it: " in line for line in lines), number not in (11, 12), lines)
        for word, said in (("0", "0 is no refusal: they are 1 to 19"), ("20", "20 is no refusal: they are 1 to 19"), ("x", "'x' is not a decimal number")):
            told = self.command("explain", word)
            self.assertEqual((told.returncode, told.stdout, told.stderr), (1, "", f"case.py: {said}\n"))

    def test_explain_an_output(self):
        """The program's output passes, and its last line is explained."""
        told = self.command("explain", given="refusal 12\n")
        self.assertEqual((told.returncode, told.stdout), (0, "refusal 12\n"))
        self.assertTrue(told.stderr.startswith("refusal 12: a file cannot be read\n"), told.stderr)
        self.assertIn("collect answers it by check 1, both files can be read", told.stderr)
        for output in ("", "finished\nlive 4\n", "refusal 9\nfreed 0\n", "refusal x\n"):
            told = self.command("explain", given=output)
            self.assertEqual((told.returncode, told.stdout, told.stderr), (0, output, ""))

    def test_run(self):
        """The program is run in the folder, and a refusal is explained with the part that causes it."""
        with tempfile.TemporaryDirectory() as work:
            program, folder = Path(work) / "collect", Path(work) / "made"
            case.save(case.parse(SAMPLE.read_text().replace("reference 2 3", "reference 2 9")), folder)
            program.write_text("#!/bin/sh\ntest -e store.cat && echo refusal 5\n")
            program.chmod(0o755)
            with patch.object(case, "COLLECT", program), patch("sys.stdout", io.StringIO()) as out, patch("sys.stderr", io.StringIO()) as told:
                self.assertEqual(case.main(["run", str(folder)]), 0)
            self.assertEqual(out.getvalue(), "refusal 5\n")
            lines = ["  lines of a case that tell it: index, reference, subject, lease", "  here: reference 2 9, number 3 of its kind, from 0"]
            self.assertEqual(told.getvalue().splitlines()[-2:], lines)
            # Files that cannot be shown, and a program that ends otherwise.
            (folder / "store.cat").write_bytes(b"half")
            program.write_text("#!/bin/sh\necho refusal 2\n")
            with patch.object(case, "COLLECT", program), patch("sys.stdout", io.StringIO()), patch("sys.stderr", io.StringIO()) as told:
                self.assertEqual(case.main(["run", str(folder)]), 0)
            self.assertNotIn("here:", told.getvalue())
            for script, status, said in (("echo finished; exit 3", 3, ""), ("kill -9 $$", 1, "case.py: collect was ended by signal 9\n")):
                program.write_text(f"#!/bin/sh\n{script}\n")
                with patch.object(case, "COLLECT", program), patch("sys.stdout", io.StringIO()), patch("sys.stderr", io.StringIO()) as told:
                    self.assertEqual((case.main(["run", str(folder)]), told.getvalue()), (status, said))
        with patch.object(case, "COLLECT", case.TOP / "target" / "bin" / "none"), patch("sys.stderr", io.StringIO()) as told:
            self.assertEqual(case.main(["run", "."]), 1)
        self.assertEqual(told.getvalue(), "case.py: target/bin/none is not there: make run proves and builds it\n")

    def test_command(self):
        with tempfile.TemporaryDirectory() as work:
            folder = Path(work) / "made" / "anew"
            made = self.command("make", SAMPLE, folder)
            self.assertEqual((made.returncode, made.stdout, made.stderr), (0, "", ""))
            shown = self.command("show", folder)
            self.assertEqual((shown.returncode, shown.stderr), (0, ""))
            self.assertEqual(case.parse(shown.stdout), case.load_text(SAMPLE))
            marks = Path(work) / "marks"
            marks.write_bytes(bytes([1, 16, 0, 0, 0, 0]))
            shown = self.command("show", folder, "--marks", marks)
            self.assertEqual((shown.returncode, shown.stderr), (0, ""))
            self.assertIn("object 100 # start\nobject 200 # box 15\nobject 300 # nobody\n", shown.stdout)
            marks.write_bytes(b"")
            short = self.command("show", folder, "--marks", marks)
            self.assertEqual((short.returncode, short.stdout, short.stderr), (1, "", "case.py: 0 marks for 6 objects\n"))
        missing = self.command("show", folder)
        self.assertEqual((missing.returncode, missing.stdout), (1, ""))
        self.assertTrue(missing.stderr.startswith("case.py: "))

    def test_wrong_words(self):
        for words in ((), ("turn",), ("make", SAMPLE), ("show",), ("show", "a", "b")):
            told = self.command(*words)
            self.assertEqual((told.returncode, told.stdout), (2, ""))
            self.assertIn("turn BOX ASKED", told.stderr)

    def test_help(self):
        told = self.command("--help")
        self.assertEqual((told.returncode, told.stderr), (0, ""))
        self.assertIn("turn BOX ASKED", told.stdout)


if __name__ == "__main__":
    unittest.main()
