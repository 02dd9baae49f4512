"""Tests of documents.py: lines, the front page and links, at both edges."""

import shutil
import tempfile
import unittest
from pathlib import Path

import documents


class Documents(unittest.TestCase):
    def setUp(self):
        self.top = Path(tempfile.mkdtemp())
        (self.top / "docs" / "changes").mkdir(parents=True)
        self.write("README.md", "# Front\n")

    def tearDown(self):
        shutil.rmtree(self.top)

    def write(self, name, text):
        (self.top / name).write_text(text, encoding="utf-8")

    def found(self):
        return list(documents.faults(self.top))

    def test_long_lines(self):
        for name in ("README.md", "CONTRIBUTING.md", "docs/GUIDE.md", "docs/changes/20-contact.md"):
            self.write(name, "λ" * 160 + "\n")
            self.assertEqual(self.found(), [])
            self.write(name, f"short\n{'λ' * 161}\n")
            self.assertEqual(self.found(), [f"{name}:2: 161 characters; 160 is the most"])
            self.write(name, "```\n" + "x" * 161 + "\n```\n")
            self.assertEqual(len(self.found()), 1)
            self.write(name, "# Front\n")

    def test_front_page(self):
        self.write("README.md", "x\n" * 120)
        self.write("docs/GUIDE.md", "x\n" * 121)
        self.assertEqual(self.found(), [])
        self.write("README.md", "x\n" * 121)
        self.assertEqual(self.found(), ["README.md: 121 lines; 120 is the most"])

    def test_links(self):
        self.write("docs/GUIDE.md", "# Guide\n\n## For scripts: what `collect` ends with\n\n```\n# no heading\n```\n")
        for link, wrong in (
            ("docs/GUIDE.md", ""),
            ("docs", ""),
            ("https://example.org/none", ""),
            ("#front", ""),
            ("docs/GUIDE.md#for-scripts-what-collect-ends-with", ""),
            ("docs/GUIDES.md", "leads to no file"),
            ("docs/GUIDE.md#no-heading", "leads to no heading"),
            ("#guide", "leads to no heading"),
            ("docs#guide", "leads to no heading"),
        ):
            self.write("README.md", f"# Front\n\n[there]({link})\n")
            self.assertEqual(self.found(), [f"README.md:3: {link} {wrong}"] if wrong else [], link)
        self.write("README.md", "")
        self.write("docs/changes/20-contact.md", "[up](../GUIDE.md), [beside](21-none.md)\n\n```\n[x](none)\n```\n")
        self.assertEqual(self.found(), ["docs/changes/20-contact.md:1: 21-none.md leads to no file"])

    def test_quotations(self):
        self.write("docs/one.txt", "one\n  two\nthree\n")
        for block, told in (
            ("one\n  two\n", []),
            ("  two\nthree\n", []),
            ("two\nthree\n", ["README.md: docs/one.txt does not have what is quoted from it"]),
            ("one\nthree\n", ["README.md: docs/one.txt does not have what is quoted from it"]),
        ):
            self.write("README.md", f"Look:\n\n<!-- from: docs/one.txt -->\n```text\n{block}```\n")
            self.assertEqual(self.found(), told, block)
        self.write("README.md", "<!-- from: docs/two.txt -->\n```text\none\n```\n")
        self.assertEqual(self.found(), ["README.md: docs/two.txt does not have what is quoted from it"])
        for text in ("<!-- from: docs/one.txt -->\n\none\n", "<!-- from: docs/one.txt -->\n```text\none\n"):
            self.write("README.md", text)
            self.assertEqual(self.found(), ["README.md: a quotation is no block, or does not end"])


if __name__ == "__main__":
    unittest.main()
