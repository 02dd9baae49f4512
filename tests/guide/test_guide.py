"""Tests of guide.py, on pages and a repository of their own: what is run, what is compared, and what is refused."""

import os
import shutil
import tempfile
import unittest
from pathlib import Path
from unittest.mock import patch

import guide

FENCE = "```"


def block(kind, text, mark=""):
    return f"{mark}{FENCE}{kind}\n{text}{FENCE}\n"


class Guide(unittest.TestCase):
    def setUp(self):
        self.top = Path(tempfile.mkdtemp())
        self.place = self.top / "copy"
        (self.top / "docs").mkdir()
        self.place.mkdir()
        (self.top / "README.md").write_text("# Nothing\n")
        (self.top / "quoted.txt").write_text("one\ntwo\nthree\n")

    def tearDown(self):
        shutil.rmtree(self.top)

    def plan(self, page):
        (self.top / "docs" / "GUIDE.md").write_text(page)
        return guide.plan(self.top)

    def faults(self, page):
        """What is wrong when the page's commands are run."""
        surroundings = guide.environment(self.top, self.place)
        return [told for step in self.plan(page) if step.part.mark != "not run" and (told := guide.fault(step, self.place, surroundings))]

    def refused(self, page, why):
        with self.assertRaises(guide.Fault) as caught:
            self.plan(page)
        self.assertIn(why, str(caught.exception))

    def test_what_is_printed(self):
        right = block("sh", "echo one\necho two\n")
        for behind, fine in (
            ("", True),
            ("\nIt goes on.\n", True),
            ("\nprints\n\n" + block("text", "one\ntwo\n"), True),
            ("\nprints two lines:\n\n" + block("text", "one\ntwo\n"), True),
            ("\nprints\n\n" + block("text", "two\n"), False),
            ("\nends in\n\n" + block("text", "two\n"), True),
            ("\nends in\n\n" + block("text", "wo\n"), False),
            ("\nends in\n\n" + block("text", "one\ntwo\n"), True),
            ("\nprints `one`\n", False),
        ):
            self.assertEqual(self.faults(right + behind) == [], fine, behind)
        self.assertEqual(self.faults(block("sh", "echo one # again\n") + "\nprints `one`. And so on:\n\n" + block("sh", "true\n")), [])

    def test_each_block_is_run(self):
        """A block behind a short answer, and the last one of a page, too."""
        page = block("sh", "echo 1\n") + "\nprints `1`.\n\n" + block("sh", "echo 2 >two\n") + "\n" + block("sh", "cat two\n") + "\nprints `3`\n"
        self.assertEqual(len(self.faults(page)), 1)
        self.assertEqual((self.place / "two").read_text(), "2\n")

    def test_status(self):
        for text in ("false\n", "false; true\n", "false | true\n", "echo $nothing\n", "exit 3\n"):
            told = self.faults("A page.\n\n" + block("sh", text))
            self.assertEqual(len(told), 1, text)
            self.assertIn("docs/GUIDE.md:3: ended with status", told[0])

    def test_from_the_top(self):
        """Each block begins in the copy's folder."""
        self.assertEqual(self.faults(block("sh", "mkdir -p below && cd below\n") + "\n" + block("sh", "cd below\n")), [])

    def test_no_end(self):
        with patch.object(guide, "SECONDS", 0.2):
            self.assertEqual(self.faults(block("sh", "sleep 600 & sleep 600\n")), ["docs/GUIDE.md:1: not done after 0.2 s"])

    def test_files(self):
        program = block("c", "int x;\n", "<!-- file: new/x.c -->\n") + "\n"
        self.assertEqual(self.faults("In `new/x.c`:\n\n" + program + block("sh", "cat new/x.c\n") + "\nprints `int x;`\n"), [])
        self.refused("In new:\n\n" + program, "does not name new/x.c")
        self.refused(program, "does not name new/x.c")
        self.refused(block("c", "int x;\n"), "a block of the kind c")

    def test_quoted(self):
        self.assertEqual(self.plan(block("text", "two\nthree\n", "<!-- from: quoted.txt -->\n")), [])
        self.refused(block("text", "two\n"), "a block of the kind text")

    def test_not_run(self):
        page = block("sh", "false\n", f"<!-- not run: {guide.NOT_RUN[0]} -->\n") + "\n"
        self.assertEqual(self.faults(page), [])
        self.assertEqual(len(self.plan(page * guide.MOST_NOT_RUN)), guide.MOST_NOT_RUN)
        self.refused(page * (guide.MOST_NOT_RUN + 1), "blocks are not run")
        self.refused(block("sh", "false\n", "<!-- not run: it is slow -->\n"), "no reason that is known")

    def test_pages_that_are_not_understood(self):
        for page, why in (
            (block("sh", "true\n", "<!-- skipped -->\n"), "this mark is not known"),
            (block("sh", "true\n", f"<!-- not run: {guide.NOT_RUN[0]} -->\n\n"), "a mark stands right before a block"),
            (block("sh", "true\n", "<!-- file: x -->\n"), "a block of the kind sh and the mark file"),
            (block("", "true\n"), "a block of the kind without a name"),
            (block("bash", "true\n"), "a block of the kind bash"),
            ("\n    make run\n", "an indented block"),
            (f"{FENCE}sh\ntrue\n", "the page ends within it"),
            ("Words.\n" + block("sh", "true\n"), "an empty line before it"),
            (block("sh", "true\n") + "\nprints\n", "does not stand behind it"),
            (block("sh", "true\n") + "\nprints\n\n" + block("sh", "true\n"), "does not stand behind it"),
        ):
            self.refused(page, why)

    def test_copy(self):
        """Files with their times, and what the gate made as files of its own; nothing else of target/, and nothing that rt keeps."""
        target = self.top / "target"
        for name in ("bin/collect", "bin/collect.stamp", "staticlib/libkullneyra.a", "staticlib/parts.x/one.o", "sample/store.cat", "../crates/laws/out/rlib/x"):
            (target / name).parent.mkdir(parents=True, exist_ok=True)
            (target / name).write_text(name)
        os.utime(self.top / "quoted.txt", (1, 1))
        os.utime(target / "staticlib" / "libkullneyra.a", (2, 2))
        place = Path(tempfile.mkdtemp()) / "copy"
        try:
            guide.copy(self.top, place)
            self.assertEqual((place / "quoted.txt").stat().st_mtime, 1)
            self.assertEqual((place / "target/staticlib/libkullneyra.a").stat().st_mtime, 2)
            self.assertFalse((place / "target/staticlib/parts.x").exists() or (place / "target/sample").exists())
            self.assertTrue((place / "target/bin/collect.stamp").is_file() and (place / "crates/laws").is_dir())
            self.assertFalse((place / "crates/laws/out").exists())
            (place / "target/bin/collect").write_text("another")
            self.assertEqual((target / "bin/collect").read_text(), "bin/collect")
        finally:
            shutil.rmtree(place.parent)


if __name__ == "__main__":
    unittest.main()
