"""Tests of tools/gate, with a command `rt` that only prints: what it runs, and what it fails on."""

import os
import shutil
import subprocess
import tempfile
import unittest
from pathlib import Path

TOP = Path(__file__).resolve().parents[2]
OK = "rt: ok; handles allowed: none; must-fail edits: 2 refused; every proof and must-fail edit was done in this run"
GREEN = "3 passed, 0 failed"
MADE = "made from-ci steps deal oci"


class Gate(unittest.TestCase):
    def setUp(self):
        self.top = Path(tempfile.mkdtemp())
        (self.top / "tools").mkdir()
        for name in ("gate", "need-packages"):
            shutil.copy(TOP / "tools" / name, self.top / "tools" / name)
        self.script("bin/rt", f'echo "$@" >>calls; echo "{OK}"; echo "{GREEN}"')
        self.script("bin/make", "shift; echo made $*")
        self.script("tests/one/run", "echo one ran")

    def tearDown(self):
        shutil.rmtree(self.top)

    def script(self, name, line):
        path = self.top / name
        path.parent.mkdir(parents=True, exist_ok=True)
        path.write_text(f"#!/bin/sh\n{line}\n")
        path.chmod(0o755)

    def gate(self):
        path = f"{self.top / 'bin'}{os.pathsep}{os.environ['PATH']}"
        done = subprocess.run([self.top / "tools" / "gate"], capture_output=True, text=True, env=os.environ | {"PATH": path})
        return done.returncode, done.stdout.splitlines()

    def test_green(self):
        self.assertEqual(self.gate(), (0, [OK, GREEN, MADE, "gate: tests/one/run", "one ran", GREEN]))
        # One plain `rt ci` at the top; what it said is kept.
        self.assertEqual((self.top / "calls").read_text(), "ci\n")
        self.assertEqual((self.top / "target/ci.log").read_text(), f"{OK}\n{GREEN}\n")

    def test_every_folder_once(self):
        for name in ("course", "runtime", "two", "three"):
            self.script(f"tests/{name}/run", f"echo {name} ran")
        status, lines = self.gate()
        told = [f"gate: tests/{name}/run" for name in ("course", "one", "runtime", "two", "three")]
        told += [f"{name} ran" for name in ("course", "one", "runtime", "two", "three")]
        self.assertEqual((status, sorted(lines)), (0, sorted([OK, GREEN, MADE, GREEN] + told)))

    def test_one_does_not_wait_for_another(self):
        self.script("bin/nproc", "echo 2")
        self.script("tests/one/run", "while ! [ -e tests/two/here ]; do sleep 0.05; done; echo one ran")
        self.script("tests/two/run", "touch tests/two/here")
        self.assertEqual(self.gate()[0], 0)

    def test_folder_without_run(self):
        (self.top / "tests" / "two").mkdir()
        status, lines = self.gate()
        self.assertEqual((status, lines[-1]), (1, "gate: tests/two/run is not there, or is no program"))

    def test_run_that_is_no_program(self):
        (self.top / "tests" / "one" / "run").chmod(0o644)
        self.assertEqual(self.gate()[0], 1)

    def test_failing_part(self):
        self.script("tests/two/run", "exit 1")
        status, lines = self.gate()
        self.assertEqual((status, lines[-1]), (1, "gate: tests/two/run failed"))

    def test_failing_part_ends_the_others(self):
        self.script("bin/nproc", "echo 2")
        self.script("tests/one/run", "exec sleep 600")
        self.script("tests/two/run", "exit 1")
        self.assertEqual(self.gate()[0], 1)

    def test_library_that_is_not_made(self):
        self.script("bin/make", "exit 2")
        status, lines = self.gate()
        self.assertEqual((status, lines[-1]), (1, "gate: the library and the programs over it could not be made"))

    def test_missing_packages_are_told_before_the_proving(self):
        (self.top / "tests" / "one" / "packages").write_text("there\nnot-there\n")
        self.script("bin/dpkg-query", """[ "$4" = not-there ] || echo install ok installed""")
        self.script("bin/id", "echo 1000")
        self.assertEqual(self.gate(), (1, ["gate: missing packages; type: sudo apt-get install not-there"]))

    def test_packages_that_can_not_be_installed(self):
        (self.top / "tests" / "one" / "packages").write_text("not-there\n")
        self.script("bin/dpkg-query", "exit 1")
        self.script("bin/id", "echo 0")
        self.script("bin/apt-get", "echo no network; exit 1")
        status, lines = self.gate()
        self.assertEqual((status, lines[0]), (1, "gate: installing not-there"))
        self.assertEqual(lines[-1], "gate: the tests need packages that could not be installed")
        self.assertIn("no network", lines)

    def test_failing_rt(self):
        told = f"echo '{OK}'; echo '{GREEN}'"
        for line in ("echo '2 passed, 1 failed'; exit 1", "echo '2 passed, 1 failed'", "echo nothing", f"{told}; exit 1", f"echo '{GREEN}'"):
            self.script("bin/rt", line)
            status, lines = self.gate()
            self.assertEqual((status, lines[-1].startswith("gate: ")), (1, True), line)

    def test_bad_edits(self):
        for edits, told in (
            ("2 refused, 1 bad", True),
            ("2 refused, 1 of them only by a limit, 12 bad", True),
            ("0 refused, 1 bad", True),
            ("2 refused, 1 of them only by a limit", False),
        ):
            said = OK.replace("2 refused", edits)
            self.script("bin/rt", f"echo '{said}'; echo '{GREEN}'")
            status, lines = self.gate()
            self.assertEqual((status, lines[-1]), (1, f"gate: must-fail edits are bad: {said}") if told else (0, GREEN))


if __name__ == "__main__":
    unittest.main()
