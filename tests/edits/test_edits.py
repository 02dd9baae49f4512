"""Tests of edits.py: what may be said first, logs that are missing, whole or old, and folders of edits."""

import os
import shutil
import tempfile
import unittest
from pathlib import Path

import edits

SPEC = "-- the numbers\nuse Rattle.std.specs.Prelude.{ℕ}\n\nlimit : ℕ\nlimit = 6\n\nfigure : limit ≡ 6\nfigure = refl\n"
EDIT = "# one more\nfile: specs/Limits.antt\nold: limit = 6\nnew: limit = 7\n"
DIFFER = "`figure`: as printed, the two types differ only where one has `6` (expected) and the other has `7` (found)"
REFUSED = "refused, as it must be: "
LEAVES = "has no last argument, so what it leaves must be a path whose two ends are equal, and `Path A x y`\n  is none"

# What is said first of edits that attack something.
FACTS = (
    DIFFER,
    "`figure`: computed as far as they go, the two types first differ where one has `2` (expected) and the other has `1` (found)",
    "`run`: computed as far as they go, the two types are `Path A old new`\n  (expected) and `Path A old old` (found)",
    "`home`: computed as far as they go, the two indices differ only where one has `s .workers`",
    "`kept`: expected type `old ≡ unless_refused (suc k) new old`, but this has type `old ≡ old`\n  computed as far as they go",
    "`returns`: `get 24 locals`\n  ≟ `not (c.is_sound.result)`: does not hold (this comparison, made",
    "`stored`: `startsFault ss` ≟ `raise (outside most-starts (length ss)) 13 0`\n  does not hold (this comparison, made",
    "`halves`: `omega`: the goal does not follow from what it read. All of that holds, and the goal fails, at `g .cutoff` = 1",
    "`halves`: `omega`: the part `.0` of the goal does not follow from what it read. All of that holds, and the part fails",
    "`ended`: list the missing equation with its arguments\n  `cc`: the equations do not join `0` to `1`, by congruence",
    "`close`: `search`: no proof of `Post (args c)`\n  was found. Every way was tried",
    f"`spec`: give a proof of that as the last argument, `rw L t`\n  `rw` {LEAVES}",
    f"`spec`: give a proof of that as the last argument, `simp L t`\n  `simp` {LEAVES}",
    "`again`: expected type `Inv-loop x`\n  but this has type `Inv-loop y`",
    "`moved`: `rw`: no occurrence of the path's left endpoint in the goal: write the family yourself and transport, `subst`",
    "`returns-then-sizes`: computed as a goal is, one side reads `bit_or (get_or s i 0) 1`\n  (left)\n  as printed, the two sides first differ where",
    # rt leaves out the end.
    "`returns-then-sizes-i-gt-LARGEST_SIZE`: computed as a goal is, one side reads `lib.Bits.bit_or (lib.ListN.get_or {A = ",
    "`unwritten`: expected type `old ≡ unless_refused (suc k) new old`, but this has type `old ≡ o",
    "`kept`: expected type `old ≡ unless_refused (suc k) new old ≡ unless_refused (suc k) new",
    "`stored`: `starts_fault ss` ≟ `raise (outside most_starts (length ss)) 13 0`",
    "`stored`: `starts_fault ss` ≟ `raise (outside most_starts",
    "`stored`: `starts_fault ss` ≟ `raise (outside most_starts (length ss)) 13 0` does",
    "`number_of_spec`: give a proof of that as the last argument, `rw L t` (`rw L ?` shows it as a hole's goal), or add w",
    "`verdict_number_spec`: `search`: no proof of `mathlib.Core.Path.◌≡◌ 12 (number_of c.args.v)` was found. `grind`",
    "`loop-k`: `omega`: the goal does not follow from what it read. All of that holds, and the goal fails, a",
    # A term of which rt left out the end, and the comparison behind it.
    "`borrow.Table.Row.get 31 (Rattle.resume.proofs.resume.Lts.T99).locals (Rattle.resume.proof",
    # What follows is advice.
    "`filled`: as printed, the two types differ only where one has `x` (expected) and the other has `y` (found)\n  (`b` is not in scope here)",
    # Words of the crate that sound like a fault are none.
    "`missing`: as printed, the two types differ only where one has `unexpected unbound private` (expected) and the other has `0` (found)",
)

# What is said first of edits that only do not fit.
UNFIT = {
    "missing field(s) of Claimed: lost": "a missing field",
    "`claim`: missing field(s) of Claimed: lost": "a missing field",
    "`returns-2`: record `Lts.After-known-told`\n  has no field `number-of`": "a field that is not there",
    "module `Tie` has no `Need-returns-4` that can be named from here": "a place that is not there",
    "`spec`: `tie` has no `Need-returns-4`": "a place that is not there",
    "module `Prim.Native.Nat` has no `ℕℕ` that can be named from here": "an unknown name",
    "`number`: `one` is not in scope: add `use Prim.Native.Nat.{one}`": "an unknown name",
    "`number`: unbound name `one`": "an unknown name",
    "this file exports no `limit-spec`, the name by which `rattle check` finds the function's proof": "an unknown name",
    "expected an expression, found `=`": "a parse error",
    "expected an expression, found the start of a new declaration": "a parse error",
    "parse error at `]`": "a parse error",
    "unexpected `)`": "a parse error",
    "`number`: `number` has no clause for 1 case; the missing clause is:\n  number Text = ?": "a clause that does not fit",
    "`number`: an exact case split needs every clause to match there or none to": "a clause that does not fit",
    "`number`: `Fine` is not a constructor of `ℕ`: it is a constructor of `Verdict`": "a clause that does not fit",
    "`close`: `number` was not admitted (it has holes or was rejected), so this cannot be checked": "something that was not admitted",
    "1 declaration that depends on `loop-i-preserved`, which was rejected, was not checked: check_runs_spec": "what was not checked, since a name is gone",
    "`spec`: unsolved ?k: _ was not determined": "something undetermined",
    "`spec`: the numeral 0 takes its meaning from the type expected here": "something undetermined",
    "No such file or directory": "a file that is not there",
    "internal error in antt: please report this": "a fault of the tool",
    "stopped at the step limit": "a fault of the tool",
    "`spec`: `y` is not in scope\n  the two types differ only where one has `x`": "an unknown name",
    "`spec`: the type at which the two sides are compared is not yet determined": "something undetermined",
    "`spec`: something that nobody has read yet": "no kind that tests/edits/edits.py knows",
}


class Edits(unittest.TestCase):
    """Two crates, one of them without edits; what `rt ci` says of the other."""

    def setUp(self):
        self.top = Path(tempfile.mkdtemp())
        self.known = edits.WITHOUT_EDITS
        edits.WITHOUT_EDITS = {"bare": "has nothing to attack"}
        for path, text in {
            "crates/one/specs/Limits.antt": SPEC,
            "crates/one/src/lib.rt": "pub fn limit() -> u32 { 6 }\n",
            "crates/one/must-fail/more.edit": EDIT,
            "crates/bare/src/lib.rt": "pub fn none() {}\n",
        }.items():
            self.write(path, text)
        self.log(DIFFER)

    def tearDown(self):
        edits.WITHOUT_EDITS = self.known
        shutil.rmtree(self.top)

    def write(self, path, text):
        (self.top / path).parent.mkdir(parents=True, exist_ok=True)
        (self.top / path).write_text(text, encoding="utf-8")

    def line(self, told, name="one/more"):
        self.write("target/ci.log", f"== one\nlogic=proved functions=1\nrt: one proved\nrt: must-fail {name}.edit: {told}\nrt: ok; handles allowed: none\n")

    def log(self, message, line=8):
        self.line(f"{REFUSED}./specs/Limits.antt:{line}:10: error: {' '.join(message.split())}")

    def told(self, log=None):
        return list(edits.faults(self.top, log))

    def assert_told(self, *parts):
        found = self.told()
        self.assertEqual(len(found), 1, found)
        for part in parts:
            self.assertIn(part, found[0])

    def test_facts(self):
        for message in FACTS:
            with self.subTest(message):
                self.log(message)
                self.assertEqual(self.told(), [])

    def test_unfit(self):
        for message, kind in UNFIT.items():
            with self.subTest(message):
                self.log(message)
                self.assert_told(f"one/more fails by {kind}, at specs/Limits.antt:8: ")

    def test_notes(self):
        """A function without a proof file is proved by a search; where that finds nothing, a note says so, at the function or in the line itself."""
        for text in (
            "`search` found no proof (`invariant_of-result`); the facts known there allow values at which this goal is false",
            "it is not proved that what the function ensures holds when it returns (`returns`); the facts known there allow values at which this goal i",
        ):
            for line in (1, 7):
                self.line(f"{REFUSED}note: src/lib.rt:{line}:5: {text}")
                self.assertEqual(self.told(), [])
        self.line(f"{REFUSED}note: src/lib.rt:1:5: something that nobody has read yet")
        self.assert_told("one/more fails by no kind that tests/edits/edits.py knows, at src/lib.rt:1: ")

    def test_in_its_own_line(self):
        self.log("`limit`: computed as far as they go, the two types are `ℕ` (expected) and `List ℕ` (found)", line=5)
        self.assert_told("one/more does not fit in its own line, specs/Limits.antt:5: ")

    def test_no_fact_fails(self):
        for line, told in (
            ("refused, as it must be", "is refused without an error"),
            ("BAD EDIT: it changes nothing", "was not refused by the prover: BAD EDIT: it changes nothing"),
            ("NOT REFUSED: the crate is still proved with this edit", "was not refused by the prover: NOT REFUSED"),
            ("NOT TRIED: its check was killed", "was not refused by the prover: NOT TRIED"),
            (f"refused, as it must be (only because a proof file names what the edit took away, so this): {DIFFER}", "is refused only because a proof file names"),
            (f"refused, as it must be (only by a limit of the prover, which gave no verdict): {DIFFER}", "is refused only by a limit of the prover: "),
        ):
            with self.subTest(line):
                self.line(line)
                self.assert_told(f"one/more {told}")

    def test_no_log(self):
        shutil.rmtree(self.top / "target")
        self.assert_told("target/ci.log is not there: run make test")

    def test_no_line(self):
        self.write("target/ci.log", "rt: one proved\n")
        self.assert_told("one/more has no line in the log: run make test")
        self.line(f"{REFUSED}./specs/Limits.antt:8:10: error: {DIFFER}", "one/less")
        self.assertEqual(self.told(), ["one/more has no line in the log: run make test", "one/less has a line in the log, and is not there"])

    def test_a_log_of_other_files(self):
        log = self.top / "target/ci.log"
        for path, text in {"must-fail/more.edit": EDIT, "specs/Limits.antt": SPEC, "src/lib.rt": "new\n", "proofs/New.antt": "new\n"}.items():
            self.write(f"crates/one/{path}", text)
            after = (self.top / "crates/one" / path).stat().st_mtime_ns
            with self.subTest(path):
                os.utime(log, ns=(after - 1, after - 1))
                self.assert_told(f"crates/one/{path} was written after target/ci.log")
            os.utime(log, ns=(after, after))
            self.assertEqual(self.told(), [])

    def test_a_log_of_its_own(self):
        """That of some crates: the others are not looked at, and no times."""
        log = self.top / "some.log"
        shutil.copy(self.top / "target/ci.log", log)
        os.utime(log, (1, 1))
        self.write("crates/two/src/lib.rt", "pub fn two() {}\n")
        self.assertEqual(self.told(log), [])
        self.assert_told("two has no edit in must-fail")

    def test_folders(self):
        self.write("crates/one/must-fail/deep/other.edit", EDIT)
        os.utime(self.top / "crates/one/must-fail/deep/other.edit", (1, 1))
        self.assertEqual(len(self.told()), 2)
        shutil.rmtree(self.top / "crates/one/must-fail/deep")
        for name in ("other.edits", "other.edit.txt", "other", ".edit~"):
            self.write(f"crates/one/must-fail/{name}", EDIT)
            os.utime(self.top / "crates/one/must-fail" / name, (1, 1))
            self.assert_told(f"crates/one/must-fail/{name} is no edit")
            (self.top / "crates/one/must-fail" / name).unlink()

    def test_an_emptied_folder(self):
        (self.top / "crates/one/must-fail/more.edit").unlink()
        self.write("target/ci.log", "rt: ok\n")
        self.assert_told("one has no edit in must-fail")
        shutil.rmtree(self.top / "crates/one/must-fail")
        self.assert_told("one has no edit in must-fail")

    def test_the_list_of_crates_without_edits(self):
        edits.WITHOUT_EDITS = {"bare": "", "one": "", "gone": ""}
        self.assertEqual(len(self.told()), 2)
        self.assertIn("gone of WITHOUT_EDITS is no crate", self.told())

    def test_an_edit_that_cannot_be_made(self):
        for text, told in (
            (EDIT.replace("old: limit = 6", "old: limit = 5"), "has an old text that is not in specs/Limits.antt just once: limit = 5"),
            (EDIT.replace("old: limit = 6", "old: limit"), "has an old text that is not in specs/Limits.antt just once: limit"),
            (EDIT.replace("specs/Limits", "specs/Limit"), "has an old text that is not in specs/Limit.antt just once: limit = 6"),
            ("# nothing\n", "changes nothing"),
        ):
            self.write("crates/one/must-fail/more.edit", text)
            os.utime(self.top / "crates/one/must-fail/more.edit", (1, 1))
            self.assert_told(f"one/more {told}")


if __name__ == "__main__":
    unittest.main()
