"""Runs as the course tells and draws them, beside the program's own output."""

import functools
import io
import json
import re
import subprocess
import sys
import tempfile
import time
import unittest
import unittest.mock
import xml.etree.ElementTree as xml
from pathlib import Path

import case
import course
import course_boxes
import course_file
import course_map
import course_run as play
import course_serve as serve
import course_sheet
import course_svg
import course_words
from course_words import LANGUAGES, words

TOP = play.TOP
COLLECT = TOP / "target" / "bin" / "collect"
SAMPLES = sorted((TOP / "samples").glob("*.txt"))
DRAWINGS = sorted((TOP / "docs" / "course").glob("*.txt"))
CASE_A = (TOP / "samples" / "a.txt").read_text()
RING = (TOP / "docs" / "course" / "ring.txt").read_text()
FOUR_BOXES = "index 0\n" + "object 10\n" * 40 + "".join(f"reference {v} {(3 * v + k) % 40}\n" for v in range(40) for k in range(1, 4))
FOUR_BOXES += "boxes 4\nbatch 2\ncutoff 2\n" + "".join(f"turns {(k + 1) % 4}: {k % 4}\n" for k in range(200))
ENGLISH = words("en")

# A run is the same each time, so that tests which only look at one share it; and so are the sheets of a run.
played = functools.cache(play.play)
WAYS = unittest.mock.patch("course_sheet.best_way", functools.cache(course_sheet.best_way))


def setUpModule():
    WAYS.start()


def tearDownModule():
    WAYS.stop()


def printed(text):
    """What the program prints for the case."""
    with tempfile.TemporaryDirectory() as folder:
        case.save(case.parse(text), Path(folder))
        return subprocess.run([COLLECT], cwd=folder, capture_output=True, text=True).stdout.splitlines()


def large_case():
    """1,000 objects, and more than 13,000 turns before the end."""
    ends = [(v // 3, v) for v in range(1, 1000)] + [((37 * k) % 1000, (91 * k + 5) % 1000) for k in range(5000)]
    lines = ["index 0"] + ["object 1"] * 1000 + [f"reference {a} {b}" for a, b in ends]
    return "\n".join(lines + ["boxes 4", "batch 1", "cutoff 1", "seed 1 0 rounds 6000"]) + "\n"


def cut(text, turns):
    """The case with its first turns only."""
    one = case.parse(text)
    one.turns = one.turns[:turns]
    return case.show(one)


class Runs(unittest.TestCase):
    def agree(self, run, lines):
        """Counts, tallies and the dead, as the program prints them."""
        state = run.state(len(run))
        wanted = ["finished" if run.finished else "unfinished"] + [f"{name} {count}" for name, count in state.counts.items()]
        for b, box in enumerate(state.boxes):
            wanted.append(f"box {b} " + " ".join(f"{name} {count}" for name, count in box.tally.items()))
        if run.finished:
            wanted += [f"dead {v}" for v in run.dead] + [f"freed {run.freed}"]
        self.assertEqual(wanted, [re.sub(r"^(dead \d+) .*", r"\1", line) for line in lines])

    def test_samples(self):
        for path in SAMPLES + DRAWINGS:
            self.agree(played(path.read_text()), printed(path.read_text()))

    def test_case_a_turn_by_turn(self):
        run = play.play(CASE_A)
        for number in range(len(run) + 1):
            part = play.play(cut(CASE_A, number))
            self.agree(part, printed(cut(CASE_A, number)))
            self.assertEqual(part.state(number), run.state(number))

    def test_states_on_demand(self):
        """A state does not depend on which was asked for before, nor on how many are kept."""
        text = (TOP / "samples" / "cards.txt").read_text()
        run, other = play.play(text), play.play(text)
        states = [run.state(number).words for number in range(len(run) + 1)]
        for number in (0, len(run), 3, 20, 19, 7, 8, 1, 0):
            self.assertEqual(run.state(number).words, states[number])
        other.every, other.kept = 5, states[::5]
        for number in (len(run), 12, 4, 11, 5):
            self.assertEqual(other.state(number).words, states[number])
        self.assertEqual(run.first.words, states[0])

    def test_each_turn_has_its_sentence(self):
        for path in SAMPLES:
            run = played(path.read_text())
            moved = 0
            for number in range(1, len(run) + 1):
                sentence = run.told(number, ENGLISH)
                self.assertTrue(sentence.startswith(f"Box {run.turn_boxes[number - 1]} ") and sentence.endswith("."), sentence)
                before, moved = moved, run.state(number).counts["moved"]
                self.assertEqual(run.kind(number) in ("nothing", "passed"), moved == before, sentence)
            counts = run.state(len(run)).counts
            self.assertEqual(run.kinds.count("handed"), counts["handed"])
            self.assertEqual(len(run.followed(len(run))), counts["followed"])
            self.assertEqual(len(set(run.followed(len(run)))), counts["followed"])

    def test_case_a_told(self):
        run = played(CASE_A)
        told = [run.told(number, ENGLISH) for number in range(1, len(run) + 1)]
        self.assertEqual(told[1], "Box 1 asks box 0.")
        self.assertEqual(told[4], "Box 0 keeps 1 reference and hands 1 to box 1; it turns black and begins a batch of 1.")
        self.assertEqual(told[13], "Box 0 loses the claim of object 3 to box 1, and is left with nothing.")
        self.assertEqual(told[16], "Box 0 passes a white token to box 1 and turns white.")
        self.assertEqual(run.sentence(5, words("de")),
                         "Zug 5: Box 0 behält 1 Verweis und übergibt 1 an Box 1; sie wird schwarz und beginnt einen Stapel von 1.")

    def test_bound(self):
        for path in SAMPLES:
            run = played(path.read_text())
            self.assertEqual(run.reached, run.state(len(run)).counts["followed"])
            self.assertLessEqual(run.rounds[len(run)], run.bound)

    def test_large_case_is_quick(self):
        """1,000 objects and 13,000 turns: the start within 2 s, and then every step within 50 ms."""
        text, taken = large_case(), []
        for _ in range(3):  # the quickest, since others work on the machine too
            began = time.monotonic()
            run, growing = play.begin(text)
            serve.step(run, 0, 2, "en")
            taken.append(time.monotonic() - began)
            growing.join()
            if taken[-1] < 2:
                break
        self.assertLess(min(taken), 2)
        self.assertGreaterEqual(len(run), 13_000)

        def took(work):
            """The quickest of three, each without what the one before it left."""
            times = []
            for _ in range(3):
                run.recent.clear()
                began = time.perf_counter()
                work()
                times.append(time.perf_counter() - began)
            return min(times)

        numbers = [0, 1, len(run), len(run) - 1, *range(40, len(run), 331)]
        steps = {number: took(lambda: serve.step(run, number, 2, "en")) for number in numbers}
        self.assertLess(max(steps.values()), 0.05, steps)
        # The rows of the list that are seen at once, anywhere in it.
        rows = {number: took(lambda: serve.turns(run, number, 60, "en")) for number in (0, 6_000, 12_900)}
        self.assertLess(max(rows.values()), 0.05, rows)
        self.assertIn("1000 objects, too many to draw", serve.step(run, 3, 2, "en")["title"])

    def test_turns_beside_each_other_cost_little(self):
        """A state beside one that was asked for takes what its turn changed, forward and backward."""
        run = play.play((TOP / "samples" / "cards.txt").read_text())
        run.every, run.kept = 1 << 20, run.kept[:1]

        class Counted(list):
            looked = 0

            def __getitem__(self, at):
                Counted.looked += 1
                return super().__getitem__(at)

        run.changes = Counted(run.changes)
        for number in range(len(run) + 1):
            run.state(number)
        self.assertLessEqual(Counted.looked, 2 * len(run.changes), "each change once")
        before = Counted.looked
        for number in range(len(run), len(run) - run.most_recent, -1):
            run.state(number)
        self.assertEqual(Counted.looked, before, "what was asked for last is kept")

    def test_refused(self):
        lines = CASE_A.splitlines()
        damaged = [
            ("index 0", "index 6", 5, "index 6"),
            ("reference 2 3", "reference 2 6", 5, "reference 2 6"),
            ("object 600", "object 1099511627777", 6, "object 1099511627777"),
            ("boxes 2", "boxes 0", 8, "boxes 0"),
            ("boxes 2", "boxes 17", 8, "boxes 17"),
            ("cutoff 1", "cutoff 0", 8, "cutoff 0"),
            ("boxes 2", "boxes 1", 9, next(line for line in lines if line.startswith("turns"))),
        ]
        for old, new, number, at in damaged:
            text = CASE_A.replace(old, new)
            with self.assertRaises(play.Fault) as caught:
                play.play(text)
            self.assertEqual((caught.exception.number, text.splitlines()[caught.exception.line - 1]), (number, at))
            self.assertIn(f"refusal {number}: ", caught.exception.text)
        with self.assertRaises(play.Fault) as caught:
            play.play(CASE_A + "what 1\n")
        self.assertEqual((caught.exception.number, caught.exception.line), (None, len(lines) + 1))

    def test_faults_of_the_text(self):
        """What is wrong with a line is said as case.py says it, and in German as well."""
        german = {
            "what 1": "„what“ beginnt keine Zeile eines Falls; diese Wörter tun es: index, object, ",
            "object": "erwartet: object SIZE; gefunden: object",
            "object x": "„x“ ist keine Dezimalzahl",
            "turn 256 0": "256 liegt über 255",
            f"object {'9' * 5000}": "eine Zahl mit 5000 Ziffern liegt über 18446744073709551615",
            "index 1": "eine zweite Zeile „index“, wo ein Fall eine hat",
            "seed 0 1 rounds 1": "das erste Wort einer Saat ist nicht 0",
            "mark 0 1": "„mark“ gehört zu einer angehaltenen Sammlung, und davor steht eine Zeile „saved TURNS“",
        }
        for line, said in german.items():
            with self.assertRaises(case.Fault) as told:
                case.parse(CASE_A + line)
            with self.assertRaises(play.Fault) as caught:
                play.play(CASE_A + line)
            self.assertEqual((caught.exception.text, caught.exception.line), (told.exception.text, told.exception.line))
            self.assertTrue(caught.exception.say(words("de")).startswith(said), caught.exception.say(words("de")))

    def test_refused_line(self):
        """The line that told what the library refuses, and no other that looks like it."""
        head = "index 0\nobject 1\nobject 2\n"
        settings = "boxes 2\nbatch 1\ncutoff 1\n"
        texts = {
            # Whom a turn names is never refused, however the colon is written.
            head + settings + "turns 5 : 0 1\nturn 7 0\n": (9, "turn 7 0"),
            head + settings + "turns 5: 0 1\nturn 0 7\nturns 0: 1 3 1\n": (9, "turns 0: 1 3 1"),
            head + settings + "cards 0 719\nseed 1 0 rounds 2\nturn 2 0\nturn 3 0\n": (9, "turn 2 0"),
            # The reader meets the index, then the references, then the leases, wherever their lines stand.
            "lease 7\nreference 0 1\nreference 3 0\n" + head + settings: (5, "reference 3 0"),
            "lease 7\nreference 0 1\n" + head + settings: (5, "lease 7"),
            "subject 2 0\n" + head.replace("index 0", "index 2") + settings: (5, "index 2"),
            head + "subject 0 2 # 9\n" + settings: (5, "subject 0 2 # 9"),
            # A size is no number of an object, and the other way round.
            head + "object 1099511627776\nobject 1099511627777\nobject 1099511627778\n" + settings: (6, "object 1099511627777"),
            head + "cutoff 0\nbatch 0\nboxes 1\n": (8, "batch 0"),
            head + "cutoff 0\nbatch 0\nboxes 0\n": (8, "boxes 0"),
        }
        for text, (number, line) in texts.items():
            with self.assertRaises(play.Fault, msg=text) as caught:
                play.play(text)
            self.assertEqual((caught.exception.number, text.splitlines()[caught.exception.line - 1]), (number, line), text)

    def test_refused_without_a_line(self):
        with self.assertRaises(play.Fault) as caught:
            play.play("index 0\nboxes 1\nbatch 1\ncutoff 1\n")
        self.assertEqual((caught.exception.number, caught.exception.line), (4, None))

    def test_not_dealt(self):
        for line in ("cards 0", "seed 1 0 rounds 1"):
            with self.assertRaises(play.Fault) as caught:
                play.play(CASE_A.replace("boxes 2", f"boxes 7\n{line}"))
            self.assertEqual(caught.exception.number, None)
            self.assertEqual(CASE_A.replace("boxes 2", f"boxes 7\n{line}").splitlines()[caught.exception.line - 1], line)

    def test_too_many_leases(self):
        text = CASE_A.replace("boxes 2", "lease 1\n" * 257 + "boxes 2")
        with self.assertRaises(play.Fault) as caught:
            play.play(text)
        self.assertEqual(caught.exception.number, 13)
        self.assertEqual(text.splitlines()[:caught.exception.line].count("lease 1"), 257)


class Bounded(unittest.TestCase):
    """What would take too much is refused with a sentence."""

    def refused(self, text, said):
        began = time.monotonic()
        with self.assertRaises(play.Fault) as caught:
            play.play(text)
        self.assertIn(said, caught.exception.text)
        self.assertLess(time.monotonic() - began, 25)
        return caught.exception

    def test_run_is_stopped(self):
        """A run that nobody asks for any more makes no further turns."""
        run, growing = play.begin(large_case().replace("object 1\n" * 1000, "object 1\n" * 20_000).replace("boxes 4", "boxes 6"))
        run.stop()
        growing.join(10)
        self.assertTrue(run.done and not run.finished and run.left == run.total - len(run))

    def test_line_that_is_cut_off(self):
        """Of a program that was stopped, a turn that is not told whole is not taken."""
        process = unittest.mock.Mock(stdout=io.StringIO("turn 0 0 0 16 6 19 1\nturn 1 0 0 20 1 1"), stderr=io.StringIO(), returncode=-9)
        run = play.play(CASE_A, 0)
        play.read_turns(run, process)
        self.assertEqual((len(run), run.left, run.fault.key, run.state(1).box(0).batch), (1, 19, "too-slow", 1))

    def test_rounds_without_end(self):
        fault = self.refused(CASE_A + "seed 1 1 rounds 4294967295\n", "at most 1,048,576 turns")
        self.assertEqual(fault.line, len(CASE_A.splitlines()) + 1)
        self.refused(CASE_A + "seed 1 1 rounds 300000\n" * 3, "at most 1,048,576 turns")

    def test_number_of_many_digits(self):
        fault = self.refused(CASE_A + f"object {'9' * 5000}\n", "a number of 5000 digits is above")
        self.assertEqual(fault.line, len(CASE_A.splitlines()) + 1)
        self.assertEqual(len(play.play(CASE_A.replace("object 600", f"object {'0' * 5000}600"))), 20)

    def test_long_case(self):
        self.refused("# " + "x" * play.MOST_TEXT, "more than 1,048,576 bytes")

    def test_case_that_takes_long(self):
        """Each removal by its ends looks at all references."""
        text = "index 0\nobject 1\n" + "reference 0 0\n" * 30_000 + "remove 0 0\n" * 30_000 + "boxes 1\nbatch 1\ncutoff 1\n"
        with unittest.mock.patch.object(play, "READ_SECONDS", 1):
            self.assertIn(self.refused(text, "").key, ("too-slow", "too-much"))

    def test_case_that_takes_much(self):
        """Fewer bytes of address space than the interpreter needs for it."""
        code = "import sys; sys.path.insert(0, 'tools'); import course_read; course_read.MEMORY = 60 << 20; sys.exit(course_read.main(['9', '/nowhere']))"
        text = "index 0\nobject 1\nboxes 1\nbatch 1\ncutoff 1\nturns 0: " + "0 " * 500_000
        done = subprocess.run([sys.executable, "-c", code], input=text, capture_output=True, text=True, cwd=TOP)
        self.assertNotEqual(done.returncode, 0)
        self.assertIn("MemoryError", done.stderr)

    def test_not_utf8(self):
        with tempfile.TemporaryDirectory() as folder:
            path = Path(folder) / "case.txt"
            path.write_bytes(b"index 0\n# \xff\n")
            self.told(["tell", str(path)], 1, "course.py: the case is not text in UTF-8\n")
            self.told(["sheet", str(path), str(Path(folder) / "x.svg")], 1, "course.py: the case is not text in UTF-8\n")

    def test_arguments(self):
        for port in ("99999", "-1", "x", "9" * 5000):
            self.told(["serve", f"--port={port}"], 2, "is no port: 0 to 65535")
        self.told(["tell", "/nowhere/case.txt"], 1, "course.py: ")
        self.told(["sheet", str(TOP / "samples" / "a.txt"), "x.png"], 1, "x.png: an .svg or an .html file is made")

    def told(self, given, status, said):
        done = subprocess.run([sys.executable, str(TOP / "tools" / "course.py"), *given], capture_output=True, text=True, timeout=60)
        self.assertEqual(done.returncode, status, done.stderr)
        self.assertIn(said, done.stderr)
        self.assertNotIn("Traceback", done.stderr)


class Words(unittest.TestCase):
    def test_languages_have_the_same_sentences(self):
        self.assertIn("de", LANGUAGES)
        for language in set(LANGUAGES) - {"en"}:
            own = json.loads((course_words.FOLDER / f"{language}.json").read_text("utf-8"))
            for part, said in ENGLISH.parts.items():
                if part != "language":
                    self.assertEqual(set(own[part]), set(said), (language, part))
        for language in LANGUAGES:
            for part, said in ENGLISH.parts.items():
                other = words(language).parts[part]
                if part == "language":
                    continue
                self.assertEqual(set(said), set(other), (language, part))
                for key in said:
                    names = [set(re.findall(r"\{(\w+)\}", text)) for text in (said[key], other[key])]
                    self.assertEqual(*names, (language, part, key))

    def test_language_with_few_sentences(self):
        """What a plant has not written yet is said in English."""
        with tempfile.TemporaryDirectory() as folder, unittest.mock.patch("course_words.FOLDER", Path(folder)):
            (Path(folder) / "en.json").write_text(json.dumps(ENGLISH.parts))
            (Path(folder) / "nl.json").write_text('{"language": "Nederlands", "sentences": {"ended": "Doos {box} stopt."}}')
            dutch = course_words.Words("nl")
        run = played(CASE_A)
        self.assertEqual((run.told(19, dutch), run.told(2, dutch)), ("Doos 0 stopt.", "Box 1 asks box 0."))
        self.assertEqual(play.Fault("no-number", part="case", word="x").say(dutch), "'x' is not a decimal number")

    def test_page_names_sentences_that_are_there(self):
        source = "".join(path.read_text() for path in serve.PAGE.rglob("*") if path.suffix in (".html", ".js"))
        named = set(re.findall(r'data-(?:word|label)="([\w-]+)"', source))
        self.assertTrue(named)
        self.assertLessEqual(named, set(ENGLISH.parts["page"]))
        for part, key in re.findall(r'Course\.say\("(\w+)", "([\w-]+)"', source):
            self.assertIn(key, ENGLISH.parts[part])

    def test_refusals_are_told(self):
        for language in LANGUAGES:
            for number in (1, 2, 3, 4, 5, 6, 7, 8, 9, 10, 12, 13, 14):
                self.assertIn(str(number), play.Fault("refusal", number).say(words(language)))
                self.assertIn(f"refusal-{number}", words(language).parts["faults"])


def arrow_kinds(run, number):
    return [(arrow.kind, arrow.source, arrow.target, arrow.fresh) for arrow in run.arrows(number)]


def inside(point, box):
    (x, y), (left, top, right, bottom) = point, box
    return left < x < right and top < y < bottom


class Arrows(unittest.TestCase):
    def test_hand_over(self):
        run = played(CASE_A)
        self.assertEqual(arrow_kinds(run, 2), [("ask", 1, 0, True)])
        self.assertEqual(arrow_kinds(run, 4), [("ask", 1, 0, False)])
        self.assertEqual(arrow_kinds(run, 5), [("hand", 0, 1, True)])
        self.assertEqual([run.sources[e] for first, end in run.arrows(5)[0].runs for e in range(first, end)], [1])
        self.assertEqual(arrow_kinds(run, 6), [])
        self.assertEqual(arrow_kinds(run, 17), [("token", 0, 1, True)])

    def test_refusal(self):
        run = played((TOP / "docs" / "course" / "c.txt").read_text())
        self.assertEqual(arrow_kinds(run, 5), [("no", 0, 1, True)])

    def test_reply_waits(self):
        """Between a reply and the turn that takes it in, the arrow stands, from who replied."""
        run = played(RING)
        self.assertEqual(arrow_kinds(run, 11), [("hand", 1, 2, True)])
        for number in (12, 13, 14):
            self.assertIn(("hand", 1, 2, False), arrow_kinds(run, number))
        self.assertEqual(arrow_kinds(run, 15), [])

    def test_refused_by_a_box_left_with_nothing(self):
        text = "index 0\nobject 1\nreference 0 0\nboxes 2\nbatch 1\ncutoff 1\nturns 0: 0 1 0\n"
        run = play.play(text)
        self.assertEqual(run.kind(3), "followed")
        self.assertIn("it refuses box 1", run.sentence(3))
        self.assertEqual(arrow_kinds(run, 3), [("no", 0, 1, True)])

    def test_arrows_go_round_boxes(self):
        for workers in (1, 2, 3, 4, 5, 8, 11, 16):
            for across in range(1, min(workers, 4) + 1):
                where = course_boxes.Grid(workers, across, course_boxes.LEAST_GAP)
                wide, high = where.size()
                boxes = [(x + 0.1, y + 0.1, x + course_boxes.WIDE - 0.1, y + course_boxes.HIGH - 0.1) for x, y in map(where.place, range(workers))]
                for source in range(workers):
                    for target in set(range(workers)) - ({source} if workers > 1 else set()):
                        for part in (0.1, 0.5, 0.9):
                            points = course_boxes.route(where, source, target, part)
                            for (x0, y0), (x1, y1) in zip(points, points[1:]):
                                self.assertTrue(x0 == x1 or y0 == y1)
                                (x0, x1), (y0, y1) = sorted((x0, x1)), sorted((y0, y1))
                                self.assertTrue(0 <= x0 and x1 <= wide and 0 <= y0 and y1 <= high, (workers, across, source, target))
                                struck = any(x0 < right and left < x1 and y0 < bottom and top < y1 for left, top, right, bottom in boxes)
                                self.assertFalse(struck, (workers, across, source, target, part))

    def test_token_of_one_box(self):
        """A box alone that handed nothing over ends without a pass; the loop to itself stays beside it."""
        where = course_boxes.Grid(1, 1, course_boxes.LEAST_GAP)
        self.assertTrue(all(x >= where.place(0)[0] + course_boxes.WIDE for x, _ in course_boxes.route(where, 0, 0, 0.5)))


def along(path):
    """Points along a path of M, L and C with absolute coordinates."""
    out, at = [], None
    for command, numbers in re.findall(r"([MLC])([^MLC]*)", path):
        points = list(zip(*[iter(map(float, numbers.replace(",", " ").split()))] * 2))
        if command == "C":
            for one, two, end in zip(*[iter(points)] * 3):
                for step in range(1, 13):
                    t = step / 12
                    part = (1 - t) ** 3, 3 * t * (1 - t) ** 2, 3 * t * t * (1 - t), t ** 3
                    out.append(tuple(sum(map(float.__mul__, part, axis)) for axis in zip(at, one, two, end)))
                at = end
        else:
            out, at = out + points, points[-1]
    return out


def tangle(objects, references):
    ends = [((v - 1) // 4, v) for v in range(1, objects - 5)]
    ends += [((37 * k + 11) % objects, (91 * k * k + 5) % objects) for k in range(references - len(ends))]
    lines = ["index 0"] + ["object 1"] * objects + [f"reference {a} {b}" for a, b in ends]
    return "\n".join(lines + ["boxes 4", "batch 2", "cutoff 2", "seed 1 0 rounds 60"]) + "\n"


class Maps(unittest.TestCase):
    def check(self, run, wide, high):
        laid = course_map.lay_out(run, ENGLISH, wide, high)
        self.assertTrue(all(laid.paths))
        (node_wide, node_high), (size_wide, size_high) = laid.node, laid.size
        boxes = [(x - node_wide / 2, y - node_high / 2, x + node_wide / 2, y + node_high / 2) for x, y in laid.places]
        for left, top, right, bottom in boxes:
            self.assertTrue(left >= 0 and top >= 0 and right <= size_wide and bottom <= size_high)
        for one, (left, top, right, bottom) in enumerate(boxes):
            for other in boxes[one + 1:]:
                self.assertFalse(left < other[2] and other[0] < right and top < other[3] and other[1] < bottom, "objects overlap")
        if len(run.targets) <= course_map.MOST_ROUTED:
            self.check_routed(run, laid, boxes)
        # In layers by hops: no object of a layer stands between objects of the one before or behind it.
        parts = [part for part in course_map.layers(run) if part]
        self.assertTrue(any(all(max(laid.places[v][axis] for v in one) < min(laid.places[v][axis] for v in other) for one, other in zip(parts, parts[1:]))
                            for axis in (0, 1)))
        return laid

    def check_routed(self, run, laid, boxes):
        struck = 0
        for e, path in enumerate(laid.paths):
            for point in along(path):
                struck += any(inside(point, box) for v, box in enumerate(boxes) if v not in (run.sources[e], run.targets[e]))
        self.assertEqual(struck, 0, "an arrow strikes through a label")
        for x, y, words_, anchor in laid.heads:
            left = x - course_svg.width(words_, 14) / 2 if anchor == "middle" else x
            label = (left, y - 11, left + course_svg.width(words_, 14), y + 3)
            self.assertFalse(any(inside(point, label) for path in laid.paths for point in along(path)), words_)

    def test_small(self):
        for path in SAMPLES + DRAWINGS:
            run = played(path.read_text())
            for room in ((250, 450), (560, 620), (374, 380)):
                self.check(run, *room)

    def test_hundred_objects(self):
        run = played(tangle(100, 300))
        laid = self.check(run, 560, 620)
        self.assertLess(max(laid.size), 2500)

    def test_four_hundred_objects(self):
        """More references than are routed: curves from edge to edge, behind the objects, on a map of its room's shape."""
        run = played(tangle(400, 800))
        laid = self.check(run, 560, 620)
        self.assertLess(max(laid.size), 2 * min(laid.size))
        wide, high = laid.node
        for e, path in enumerate(laid.paths):
            for point, v in ((along(path)[0], run.sources[e]), (along(path)[-1], run.targets[e])):
                off = max(abs(point[0] - laid.places[v][0]) - wide / 2, abs(point[1] - laid.places[v][1]) - high / 2)
                self.assertLess(abs(off), 0.2, (e, v))
        drawn = course_map.map_inner(run, ENGLISH, laid, 100)
        self.assertLess(drawn.rindex("<path data-e="), drawn.index("<g data-v="))

    def test_laid_out_once(self):
        """Another order, or one more turn, leaves the map as it is; another store, room or language does not."""
        course_map.LAID.clear()
        with unittest.mock.patch("course_map.dot", side_effect=course_map.dot) as dot:
            for text in (CASE_A, CASE_A + "turn 0 1\n", CASE_A.replace("object 600", "object 601")):
                laid = course_map.lay_out(played(text), ENGLISH, 560, 620)
                self.assertIs(laid, course_map.lay_out(played(CASE_A), ENGLISH, 560, 620))
            asked = dot.call_count
            for run, said, room in ((played(CASE_A), words("de"), (560, 620)), (played(CASE_A), ENGLISH, (250, 620)),
                                    (played(CASE_A.replace("reference 2 3", "reference 2 4")), ENGLISH, (560, 620))):
                course_map.lay_out(run, said, *room)
                self.assertGreater(dot.call_count, asked)
                asked = dot.call_count
            for wide in range(100, 100 + 2 * course_map.MOST_LAID):
                course_map.lay_out(played("index 0\nobject 1\nboxes 1\nbatch 1\ncutoff 1\n"), ENGLISH, wide, 100)
            self.assertEqual(len(course_map.LAID), course_map.MOST_LAID)

    def test_looks(self):
        run = played(CASE_A)
        edges = course_map.edge_looks(run, 5)
        self.assertEqual(edges, {0: "followed", 1: "front0", 2: "front1"})
        self.assertEqual(course_map.edge_looks(run, 4)[0], "now0")
        self.assertEqual(course_map.edge_looks(run, 16)[4], "now1")
        thick = {look: shape[1] for look, shape in course_map.EDGES.items()}
        self.assertTrue(thick["other"] < thick["followed"] < thick["carried3"] < thick["front3"] < thick["now3"])
        nodes = course_map.node_looks(run, ENGLISH, 20)
        self.assertEqual([nodes[v][1] for v in range(6)], ["start", "Box 0", "Box 0", "Box 1", "dead", "dead"])

    def test_names_of_a_real_store(self):
        text = CASE_A.replace("object 200", "object 200 # manifest v1").replace("object 300", "object 300 # layer   0123abc")
        run = play.play(text)
        self.assertEqual(run.names[:4], ["", "manifest v1", "layer 0123abc", ""])
        drawn = course_map.map_svg(run, ENGLISH, course_map.lay_out(run, ENGLISH, 560, 620))
        self.assertIn(">manifest v1<", drawn)
        self.assertEqual(serve.object_name("3 sha256:0123456789 5 layer", {}), "layer 0123456")
        self.assertEqual(serve.object_name("3 sha256:0123456789 5 manifest", {"sha256:0123456789": "v1"}), "manifest v1")
        self.assertEqual(serve.object_name("0 index.json 5 index", {}), "index.json")

    def test_without_graphviz(self):
        run, kept = play.play(CASE_A), course_map.DOT
        course_map.DOT = "/nowhere/dot"
        try:
            with self.assertRaises(play.Fault) as caught:
                course_map.lay_out(run, ENGLISH, 100, 100)
            self.assertIn("apt-get install graphviz", caught.exception.text)
        finally:
            course_map.DOT = kept


class Drawings(unittest.TestCase):
    def test_every_step_is_a_drawing(self):
        for path in SAMPLES:
            run = played(path.read_text())
            for number in range(len(run) + 1):
                told = serve.step(run, number, 2, "de")
                drawn = xml.fromstring(told["boxes"])
                self.assertEqual(drawn.get("role"), "group")
                self.assertEqual(sum(one.get("data-box") is not None for one in drawn.iter()), run.workers)

    def test_boxes_show_the_state(self):
        run = played(CASE_A)
        shown = list(xml.fromstring(course_boxes.boxes_svg(run, ENGLISH, 5, 2)).itertext())
        for said in ("Box 0", "Box 1", "asking, given work", "1 handed", "0 → 2", "token", "black", "white"):
            self.assertIn(said, shown)
        self.assertEqual(shown.count("1 → 3"), 2, "in the box and on the arrow")
        self.assertEqual(shown.count("at work"), 2)
        self.assertEqual(list(xml.fromstring(course_boxes.boxes_svg(run, ENGLISH, 20, 2)).itertext()).count("at work"), 0)

    def test_what_is_on_arrows_is_whole(self):
        """It stays within the drawing however the boxes stand, and between two rows of boxes it lies on none."""
        run, tag = played(FOUR_BOXES), "{http://www.w3.org/2000/svg}"
        sent = [number for number in range(len(run) + 1) if run.arrows(number)]
        self.assertIn("handed", {run.kind(number) for number in sent})
        between = 0
        for across in (1, 2, 4):
            where = course_boxes.grid(run, across)
            places = [where.place(b) for b in range(run.workers)]
            for number in sent:
                drawn = xml.fromstring(course_boxes.boxes_svg(run, ENGLISH, number, across))
                for load in (one for one in drawn.iter(f"{tag}g") if one.get("data-arrow")):
                    shapes = [tuple(float(one.get(side)) for side in ("x", "y", "width", "height")) for one in load.iter(f"{tag}rect")]
                    lies = any(where.between_rows(y + high / 2) for _, y, _, high in shapes)
                    between += lies
                    for x, y, wide, high in shapes:
                        self.assertTrue(0 <= x and x + wide <= where.size()[0], (across, number))
                        over = any(x < left + course_boxes.WIDE and left < x + wide and y < top + course_boxes.HIGH and top < y + high for left, top in places)
                        self.assertFalse(lies and over, (across, number))
        self.assertGreater(between, 5)

    def test_many_references_are_summed_up(self):
        text = "index 0\n" + "object 1\n" * 500 + "".join(f"reference 0 {v}\n" for v in range(1, 300)) + "boxes 2\nbatch 9\ncutoff 9\nturns 0: 1 0\n"
        run = play.play(text)
        self.assertRegex("|".join(xml.fromstring(course_boxes.boxes_svg(run, ENGLISH, 0, 2)).itertext()), r"\+ 2[89]\d")
        self.assertIn("+ 146", "|".join(xml.fromstring(course_boxes.boxes_svg(run, ENGLISH, 2, 2)).itertext()))
        self.assertIn("500 objects, too many to draw", serve.step(run, 2, 2, "en")["title"])

    def test_letters_and_names_fit(self):
        """From box 10 on, too, nothing in a box runs into what stands beside it, in any language."""
        text = "index 0\nobject 1\nobject 1\n" + "reference 0 1\n" * 40 + "boxes 16\nbatch 3\ncutoff 2\n" + "".join(f"turns 0: {b} 0\n" for b in range(1, 16))
        run = play.play(text)
        for language in LANGUAGES:
            for number in (0, len(run) // 2, len(run)):
                for box in xml.fromstring(course_boxes.boxes_svg(run, words(language), number, 4)).findall(".//*[@data-box]"):
                    self.check_box(box)

    def check_box(self, box):
        left = float(next(iter(box)).get("x"))
        rows = {}
        for one in box.iter():
            if not one.tag.endswith("text"):
                continue
            size, x = float(one.get("font-size")), float(one.get("x"))
            self.assertGreaterEqual(size, course_boxes.SMALLEST)
            wide = float(one.get("textLength") or course_svg.width(one.text or "", size, one.get("font-weight") == "bold"))
            begin = x - {"middle": wide / 2, "end": wide}.get(one.get("text-anchor"), 0)
            self.assertTrue(left <= begin and begin + wide <= left + course_boxes.WIDE, one.text)
            rows.setdefault(round(float(one.get("y")) / 4), []).append((begin, begin + wide, one.text))
        for row in rows.values():
            row.sort()
            for (_, end, one), (begin, _, other) in zip(row, row[1:]):
                self.assertLessEqual(end, begin + 1, (one, other))

    def test_fills_differ_without_colour(self):
        shapes = {re.sub(r"#\w+", "", course_svg.pattern(b)).replace(f"fill{b}", "") for b in range(16)}
        self.assertEqual(len(shapes), 16)


def letters(root, scale=1.0):
    """The size of each text of a drawing, in its own unit."""
    for one in root:
        grown = re.search(r"scale\(([\d.]+)\)", one.get("transform", ""))
        inner = scale * (float(grown[1]) if grown else 1)
        if one.tag.endswith("text"):
            yield float(one.get("font-size")) * inner, one.text
        yield from letters(one, inner)


def without_map(text):
    """A stored file without what Graphviz chose, numbers and paths: another version of it may place objects otherwise."""
    def plain(found):
        return re.sub(r"-?\d+(\.\d+)?", "#", re.sub(r' d=\\?"[^"]*"', " d", found[0]))

    return re.sub(r'<g class="map".*?</g><!--map-->|"svg":".*?"looks"', plain, text, flags=re.S)


class Sheets(unittest.TestCase):
    def check(self, run, title, language="en"):
        pages = course_sheet.sheets(run, words(language), title)
        shown = []
        for page in pages:
            root = xml.fromstring(page)
            self.assertEqual((root.get("width"), root.get("height"), root.get("viewBox")), ("420mm", "297mm", "0 0 420 297"))
            sizes = list(letters(root))
            self.assertGreaterEqual(min(size for size, _ in sizes), 2.499)
            shown += [said for _, said in sizes]
            self.assertIn('<rect width="420" height="297" fill="#fff"/>', page)
        written = " ".join(said for said in shown if said)
        for number in range(len(run) + 1):
            if run.kind(number) != "nothing":
                self.assertIn(run.sentence(number, words(language)), written)
        return pages, written

    def test_letters_and_sentences(self):
        for path in DRAWINGS + [TOP / "samples" / "cards.txt"]:
            for language in LANGUAGES:
                self.check(played(path.read_text()), "A title", language)

    def test_four_boxes(self):
        text = "index 0\n" + "object 1\n" * 9 + "".join(f"reference {v // 2} {v}\n" for v in range(1, 9)) + "boxes 4\nbatch 1\ncutoff 1\nseed 3 5 rounds 30\n"
        self.check(play.play(text), "Four")

    def test_turns_that_change_nothing_are_one_line(self):
        run = play.play(CASE_A.replace("turns 0: 0 1", "turns 1: 1 1 1\nturns 0: 0 1"))
        _, written = self.check(run, "A")
        self.assertIn("Turns 1 to 3 change nothing.", written)
        self.assertNotIn("Turn 2:", written)

    def test_no_blank_half(self):
        """No sheet but the last is less than half full, and the last one has drawings in it."""
        for path in DRAWINGS:
            run = played(path.read_text())
            chosen = course_sheet.best_way(run, ENGLISH)
            high = course_boxes.grid(run, chosen.across).size()[1] * chosen.scale
            for rows in chosen.sheets[:-1]:
                self.assertGreater(len(rows) * high, course_sheet.HIGH / 2, path.name)

    def test_files(self):
        with tempfile.TemporaryDirectory() as folder:
            for name in ("a.svg", "a.html"):
                self.assertEqual(course.main(["sheet", str(TOP / "samples" / "a.txt"), str(Path(folder) / name)]), 0)
            made = sorted(path.name for path in Path(folder).iterdir())
            self.assertEqual(made, ["a-1.svg", "a-2.svg", "a.html"])
            self.assertIn("size:A3 landscape", (Path(folder) / "a.html").read_text())

    def test_too_many_turns(self):
        run = play.play(large_case(), 1001)
        for make in (lambda: course_sheet.sheets(run, ENGLISH, "A"), lambda: course_file.page(run, "en")):
            with self.assertRaises(play.Fault) as caught:
                make()
            self.assertIn("1001 turns are more than paper or one file takes", caught.exception.text)

    def test_stored_sheets(self):
        """docs/course has the drawings A to J and the ring's as they are drawn now, and nothing else."""
        folder = TOP / "docs" / "course"
        self.assertEqual([path.stem for path in DRAWINGS], [*"abcdefghij", "ring"])
        wanted = {}
        for path in DRAWINGS:
            text = path.read_text()
            wanted |= course_sheet.files(played(text), ENGLISH, serve.title(text, path.stem), path.with_suffix(".svg"))
        self.assertEqual(sorted(wanted), sorted(folder.glob("*.svg")))
        for path, text in wanted.items():
            self.assertEqual(without_map(path.read_text()), without_map(text), f"{path.name}: make sheets draws it anew")

    def test_finished_file(self):
        """docs/course/a.html is the page with drawing A as it is now."""
        made = course_file.page(played((TOP / "docs" / "course" / "a.txt").read_text()), "en")
        self.assertEqual(without_map((TOP / "docs" / "course" / "a.html").read_text()), without_map(made), "make sheets makes it anew")
        self.assertIn("docs/course/a.html", "\n".join((TOP / "README.md").read_text().splitlines()[:20]))


if __name__ == "__main__":
    unittest.main()
