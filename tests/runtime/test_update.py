"""References that come and go, from a case's text to the text afterwards, beside SPECIFICATION 12 in a few lines."""

import random
import subprocess
import sys
import tempfile
import unittest
from pathlib import Path

TOP = Path(__file__).resolve().parents[2]
sys.path.insert(0, str(TOP / "tools"))
import case  # noqa: E402

EXAMPLES = TOP / "target/cargo/debug/examples"
SAMPLE = (TOP / "samples" / "a.txt").read_text()
SEED = 12


def followed(objects, marks):
    """Everything that a marked object leads to has a mark, 255 where it had none."""
    marks, left = list(marks), [v for v, mark in enumerate(marks) if mark]
    while left:
        for to in objects[left.pop()]:
            if not marks[to]:
                marks[to] = 255
                left.append(to)
    return marks


def updated(before, marks):
    """The references by number and the marks after a case's update."""
    n = len(before.sizes)
    kept = [pair for at, pair in enumerate(case.stored(before)) if at not in before.removed]
    if before.removed:
        fewer = [[to for source, to in kept if source == v] for v in range(n)]
        marks = followed(fewer, [int(v in (before.index, *before.leases)) for v in range(n)])
    objects = [[to for source, to in kept + before.added if source == v] for v in range(n)]
    return [(v, to) for v in range(n) for to in objects[v]], followed(objects, marks)


class Update(unittest.TestCase):
    def setUp(self):
        held = tempfile.TemporaryDirectory()
        self.addCleanup(held.cleanup)
        self.old, self.new = Path(held.name) / "old", Path(held.name) / "new"

    def example(self, name, *folders):
        return subprocess.run([EXAMPLES / name, *folders], capture_output=True, text=True)

    def marked(self, text):
        """The case of the text, saved with the marks that its collection leaves."""
        made = case.parse(text)
        case.save(made, self.old)
        self.assertEqual(self.example("owners", self.old).stderr, "")
        return made, (self.old / "marks").read_bytes()

    def update(self):
        """What the update prints, and the case and the marks that it leaves."""
        done = self.example("update", self.old, self.new)
        self.assertEqual((done.returncode, done.stderr), (0, ""))
        return done.stdout, case.load(self.new), list((self.new / "marks").read_bytes())

    def refused(self, cause):
        done = self.example("update", self.old, self.new)
        self.assertEqual((done.returncode, done.stdout), (1, ""))
        self.assertIn(cause, done.stderr)
        self.assertFalse(self.new.exists())

    def test_specification(self):
        _, marks = self.marked(SAMPLE + "add 4 1\nadd 3 5\n")
        self.assertEqual(list(marks), [1, 1, 1, 2, 0, 0])
        printed, after, marks = self.update()
        self.assertEqual(printed, "0 1\n1 1\n2 1\n3 2\n4 255\n5 255\n")
        self.assertEqual(after.references, [(0, 1), (0, 2), (1, 3), (2, 3), (3, 0), (3, 5), (4, 1), (5, 4)])
        self.assertEqual(marks, [1, 1, 1, 2, 255, 255])
        self.marked(SAMPLE + "remove 3\nremove 1\nremove 3\n")
        _, after, marks = self.update()
        self.assertEqual(after.references, [(0, 1), (1, 3), (3, 0), (5, 4)])
        self.assertEqual(marks, [1, 255, 0, 255, 0, 0])

    def test_push(self):
        """The sample's objects afterwards are those that GUIDE shows; without the first image its manifest alone is dead."""
        push = (TOP / "samples" / "push.txt").read_text()
        self.marked(push)
        _, after, marks = self.update()
        shown = [line for line in case.show(after, bytes(marks)).splitlines() if line.startswith("object")]
        self.assertIn("\n" + "\n".join(shown) + "\n", (TOP / "docs" / "GUIDE.md").read_text())
        self.marked(push + "remove 0 1\n")
        self.assertEqual(self.update()[2], [1, 0, 255, 255, 255, 0])

    def test_drawn(self):
        rng = random.Random(SEED)
        for number in range(60):
            n, m = rng.randint(1, 8), rng.randrange(12)
            ends = lambda: f"{rng.randrange(n)} {rng.randrange(n)}"
            lines = ["index 0", *(f"object {rng.randrange(2**40)}" for _ in range(n))]
            lines += [f"{rng.choice(['reference', 'reference', 'subject'])} {ends()}" for _ in range(m)]
            lines += [f"lease {rng.randrange(n)}" for _ in range(rng.choice([0, 0, 2]))]
            lines += ["boxes 2", "batch 1", "cutoff 1", f"seed 1 {number} rounds {7 * m + 10}"]
            lines += [f"add {ends()}" for _ in range(rng.randrange(5))]
            lines += [f"remove {rng.randrange(m)}" for _ in range(rng.choice([0, 0, 1, 4]) if m else 0)]
            before, given = self.marked("\n".join(lines))
            if not before.added and not before.removed:
                continue
            _, after, marks = self.update()
            self.assertEqual((after.references, marks), updated(before, given), lines)
            self.assertEqual((after.index, after.sizes, after.leases), (before.index, before.sizes, before.leases))
            self.assertEqual((after.settings, after.turns, after.subjects), (before.settings, before.turns, set()))

    def test_refused(self):
        for line, cause in (("add 6 0", "Object"), ("add 0 6", "Object"), ("remove 6", "Object")):
            self.marked(f"{SAMPLE}{line}\n")
            self.refused(cause)
        self.marked(SAMPLE + "add 4 1\n")
        (self.old / "marks").write_bytes(bytes([1, 0, 1, 1, 0, 0]))
        self.refused("Marks")
        (self.old / "marks").write_bytes(bytes(5))
        self.refused("Buffer")
        (self.old / "store.update").write_bytes(bytes(7))
        self.refused("store.update has another length")


if __name__ == "__main__":
    unittest.main()
