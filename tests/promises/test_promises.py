"""Tests of promises.py: each form of a name where it is there and where it is not."""

import shutil
import tempfile
import unittest
from pathlib import Path

import promises

FILES = {
    "crates/one/specs/Sound.antt": """\
-- helper : no declaration
use Rattle·two.specs.Other.{borrowed}

abbrev pub short : ℕ
short = 1

pub data Kind (n : ℕ) : Type 0 where
  -- the first two
  left right : Kind n
  both : ℕ → Kind n

pub record Sound (n : ℕ) : Type 0 where
  -- a remark : with a colon
  pub limit : n ≤ short
  pub exact? :
      n ≡ short
""",
    "crates/one/proofs/Sound.antt": """\
module _ {n : ℕ} (S : Sound n) where
  module _ (m : ℕ) where
    pub kept : Sound m
    kept = helper
      where
        helper : Sound m

lemma : Sound 1
""",
    "crates/one/proofs/Laws.antt": "pub record Law : Type 0 where\n  pub limit : ℕ\n",
    "crates/one/src/lib.rt": "// pub fn ghost()\npub mod deep;\npub struct Answer {}\npub fn call(x: u8) -> u8\n{\n    x\n}\nimpl Answer {\n    pub fn told(&self) {\n    }\n}\npub trait Asks {\n    fn asked(&self);\n}\n",
    "crates/one/src/deep.rt": "fn inner() {\n}\n",
    "crates/one/must-fail/limit_off.edit": "",
    "crates/one/must-fail/kept_lost.edit": "",
    "crates/two/specs/Other.antt": "pub borrowed : ℕ\n",
    "crates/two/must-fail/other.edit": "",
    "samples/a.txt": "",
}

HEAD = "# Promises\n\n`nothing` is read before the first heading.\n\n## First\n\n"
EDITS = "\n- All\n  - Attacked by: `one/limit_off`, `kept_lost`,\n    `two/other`\n"


class Promises(unittest.TestCase):
    def setUp(self):
        self.top = Path(tempfile.mkdtemp())
        for path, text in FILES.items():
            (self.top / path).parent.mkdir(parents=True, exist_ok=True)
            (self.top / path).write_text(text, encoding="utf-8")

    def tearDown(self):
        shutil.rmtree(self.top)

    def found(self, text):
        (self.top / promises.PROMISES).parent.mkdir(exist_ok=True)
        (self.top / promises.PROMISES).write_text(text, encoding="utf-8")
        return list(promises.faults(self.top))

    def wrong(self, part):
        """The faults of one part of a section, an item or a paragraph."""
        in_item, in_paragraph = self.found(f"{HEAD}- x\n  - Stated by: {part}{EDITS}"), self.found(f"{HEAD}{part}\n{EDITS}")
        self.assertEqual(in_item, in_paragraph)
        return [line.removeprefix("First: ") for line in in_item]

    def test_names_that_are_there(self):
        for part in (
            "`one` `Sound.short`, `Kind`, `left`, `right`, `both`, `Sound.limit`, `exact?`, `Kind.left`, `kept`, `lemma`",
            "`one` `Sound.Sound.limit` and `Laws`, `Law`, `Law.limit`; `Sound.lemma`; `two` `Other.borrowed`",
            "`one::call`, `one::Answer`, `one::deep`, `one::deep::inner`, `one::Answer::told`, `one::Asks`, `one::Asks::asked`",
            "`requires`, `samples/a.txt`, `crates/one/src`, `one/specs/Sound.antt`",
            "`one/limit_off`, `kept_lost`; `two/other`; `one` `Laws`",
            "nothing at all",
        ):
            self.assertEqual(self.wrong(part), [], part)

    def test_names_that_are_not(self):
        for part, name, why in (
            ("`one` `Sound.long`", "Sound.long", "is not in Sound of one"),
            ("`one` `Sound.short`, `long`", "long", "is not in Sound of one"),
            ("`one` `Sound.helper`", "Sound.helper", "is not in Sound of one"),
            ("`one` `Sound.borrowed`", "Sound.borrowed", "is not in Sound of one"),
            ("`one` `Sound.Kind.limit`", "Sound.Kind.limit", "is not in Sound of one"),
            ("`one` `Sound.Sound.limit.limit`", "Sound.Sound.limit.limit", "is not in Sound of one"),
            ("`one` `Sounds.short`", "Sounds.short", "is in no file of one"),
            ("`two` `Sound.short`", "Sound.short", "is in no file of two"),
            ("`one` `short`", "short", "is in no file of one"),
            ("`Sound.short`", "Sound.short", "stands behind no crate"),
            ("`one/limit_off`, `Sound.short`", "Sound.short", "stands behind no crate"),
            ("`one::calls`", "one::calls", "is not in the crate's src"),
            ("`one::ghost`", "one::ghost", "is not in the crate's src"),
            ("`one::inner`", "one::inner", "is not in the crate's src"),
            ("`one::deep::call`", "one::deep::call", "is not in the crate's src"),
            ("`one::Answer::call`", "one::Answer::call", "is not in the crate's src"),
            ("`one::Answer::asked`", "one::Answer::asked", "is not in the crate's src"),
            ("`three::call`", "three::call", "is not in the crate's src"),
            ("`one/limit_on`", "one/limit_on", "is no edit"),
            ("`one/limit_off`, `other`", "other", "is no edit of one"),
            ("`samples/b.txt`", "samples/b.txt", "is no path"),
            ("`two words`", "two words", "is not understood"),
        ):
            self.assertEqual(self.wrong(part), [f"`{name}` {why}"], part)

    def test_how_far_a_crate_holds(self):
        items = f"{HEAD}- x\n  - Stated by: `one` `Sound.short`\n  - Proved by: `Sound.short`{EDITS}"
        self.assertEqual(self.found(items), ["First: `Sound.short` stands behind no crate"])
        paragraphs = f"{HEAD}`one` `Sound.short`\nand `kept`.\n\n`Sound.short`\n{EDITS}"
        self.assertEqual(self.found(paragraphs), ["First: `Sound.short` stands behind no crate"])

    def test_crate_of_a_section(self):
        own = f"{HEAD}Names without a crate are those of\n`one`, as `Sound.short` is.\n\n- `Laws.Law`\n  - Proved by: `two` `Other`{EDITS}"
        self.assertEqual(self.found(own), [])
        self.assertEqual(self.found(f"{own}\n## Second\n\n`Sound.short`\n"), ["Second: `Sound.short` stands behind no crate"])

    def test_edits_that_no_item_names(self):
        self.assertEqual(
            self.found(f"{HEAD}`one/limit_off` is told of here.\n\n- x\n  - Proved by: `two/other`\n  - Attacked by: `one/kept_lost`\n"),
            ["no item names the edit one/limit_off", "no item names the edit two/other"],
        )


if __name__ == "__main__":
    unittest.main()
