"""Tests of the program's files: what is readable, what is too long, and that nothing is changed."""

import os
import shutil
import subprocess
import sys
import tempfile
import unittest
from pathlib import Path

TOP = Path(__file__).resolve().parents[2]
sys.path.insert(0, str(TOP / "tools"))
import case  # noqa: E402

PROGRAM = TOP / "target" / "bin" / "collect"
FILES = ("store.cat", "order.run")
NOBODY = 65534

# Root may read every file, so the program runs as nobody where the tests run as root.
AS_NOBODY = {"user": NOBODY, "group": NOBODY, "extra_groups": []} if os.getuid() == 0 else {}


class Folder(unittest.TestCase):
    """A folder with the program and the two files of the sample, store S and case A."""

    def setUp(self):
        self.folder = Path(tempfile.mkdtemp())
        self.folder.chmod(0o755)
        self.program = self.folder / "collect"
        shutil.copy(PROGRAM, self.program)
        sample = case.load_text(TOP / "samples" / "a.txt")
        self.store, self.order = case.store_bytes(sample), case.order_bytes(sample)
        self.write("store.cat", self.store)
        self.write("order.run", self.order)

    def tearDown(self):
        shutil.rmtree(self.folder)

    def write(self, name, data):
        (self.folder / name).write_bytes(data)
        (self.folder / name).chmod(0o644)

    def start(self, *command, stdout=subprocess.PIPE, **options):
        """Runs the program, or a command of the shell that does."""
        options = AS_NOBODY | {"cwd": self.folder, "stderr": subprocess.PIPE, "timeout": 60} | options
        return subprocess.run(command or [self.program], stdout=stdout, **options)

    def run_program(self, *command, **options):
        """What the program prints, if it ends as it should."""
        done = self.start(*command, **options)
        self.assertEqual((done.returncode, done.stderr), (0, b""))
        return done.stdout.decode()


class Program(Folder):
    def test_case_a(self):
        before = sorted(self.folder.iterdir())
        self.assertEqual(
            self.run_program(),
            "finished\nlive 4\nfollowed 5\nhanded 1\nrefused 0\nmoved 18\ncarrying 0\n"
            "box 0 followed 3 won 2 lost 1 handed 1\nbox 1 followed 2 won 1 lost 0 handed 0\n"
            "dead 4 500\ndead 5 600\nfreed 1100\n",
        )
        self.assertEqual(sorted(self.folder.iterdir()), before)
        self.assertEqual([(self.folder / name).read_bytes() for name in FILES], [self.store, self.order])

    def test_missing(self):
        for name in FILES:
            data = (self.folder / name).read_bytes()
            (self.folder / name).unlink()
            self.assertEqual(self.run_program(), "refusal 12\n")
            self.write(name, data)

    def test_folder(self):
        for name in FILES:
            data = (self.folder / name).read_bytes()
            (self.folder / name).unlink()
            (self.folder / name).mkdir()
            self.assertEqual(self.run_program(), "refusal 12\n")
            (self.folder / name).rmdir()
            self.write(name, data)

    def test_no_permission(self):
        for name in FILES:
            (self.folder / name).chmod(0)
            self.assertEqual(self.run_program(), "refusal 12\n")
            (self.folder / name).chmod(0o644)

    def test_limits(self):
        self.write("store.cat", self.store + bytes(62064 - len(self.store)))
        self.assertEqual(self.run_program(), "refusal 2\n")
        self.write("store.cat", self.store + bytes(62065 - len(self.store)))
        self.assertEqual(self.run_program(), "refusal 11\n")
        self.write("store.cat", self.store)
        self.write("order.run", self.order + bytes(65536 - len(self.order)))
        self.assertEqual(self.run_program(), "refusal 9\n")
        self.write("order.run", self.order + bytes(65537 - len(self.order)))
        self.assertEqual(self.run_program(), "refusal 11\n")
        self.write("order.run", self.order[:4])
        self.assertEqual(self.run_program(), "refusal 12\n")
        self.write("order.run", self.order[:5])
        self.assertEqual(
            self.run_program(),
            "unfinished\nlive 1\nfollowed 0\nhanded 0\nrefused 0\nmoved 0\ncarrying 1\n"
            "box 0 followed 0 won 0 lost 0 handed 0\nbox 1 followed 0 won 0 lost 0 handed 0\n",
        )

    def test_huge_file_is_not_read(self):
        os.truncate(self.folder / "store.cat", 1 << 40)
        self.assertEqual(self.run_program(), "refusal 11\n")


if __name__ == "__main__":
    unittest.main()
