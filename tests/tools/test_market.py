"""Tests of tools/market.py: files as they are published, what is changed in them, and what is refused."""

import bz2
import gzip
import re
import subprocess
import sys
import tempfile
import unittest
from pathlib import Path

TOP = Path(__file__).resolve().parents[2]
sys.path.insert(0, str(TOP / "tools"))
import market  # noqa: E402

BANNER = "%%MatrixMarket matrix coordinate pattern general\n"
# The text that import takes, by SPECIFICATION 13.1, in one pattern.
TAKEN = re.compile(BANNER.encode() + rb"(?:%[^\n]*\n)*([0-9]{1,10}) ([0-9]{1,10}) ([0-9]{1,10})\n((?:[0-9]{1,10} [0-9]{1,10}\n)*)")


def graph(text):
    """Objects and pairs of a text that import takes; None for another."""
    found = TAKEN.fullmatch(text)
    if not found or found[1] != found[2]:
        return None
    pairs = [tuple(map(int, line.split())) for line in found[4].splitlines()]
    inside = all(1 <= end <= int(found[1]) for pair in pairs for end in pair)
    return (int(found[1]), pairs) if len(pairs) == int(found[3]) and inside else None


class Files(unittest.TestCase):
    def run_on(self, data, *words):
        """Status, output and what was said of a file with these bytes."""
        done = subprocess.run([sys.executable, TOP / "tools" / "market.py", *(words or ("-", "-"))], input=data, capture_output=True)
        return done.returncode, done.stdout, done.stderr.decode()

    def made(self, text, wanted, *said):
        """The file becomes this graph, and these changes are told, no others."""
        data = text if isinstance(text, bytes) else text.encode()
        with tempfile.TemporaryDirectory() as work:
            source, target = Path(work) / "in.mtx", Path(work) / "out.mtx"
            source.write_bytes(data)
            with open(source, "rb") as file, open(target, "wb") as out:
                changes = market.convert(file, out)
            written = target.read_bytes()
        self.assertEqual(graph(written), wanted, written)
        self.assertEqual(set(changes.found), set(said), changes.told())
        return written

    def test_as_import_takes_it(self):
        """What is taken already stays as it is, byte by byte: a file of SciPy, with its remark, and one without entries."""
        stored = (TOP / "tests" / "runtime" / "scipy.mtx").read_bytes()
        self.assertEqual(self.made(stored, graph(stored)), stored)
        self.assertEqual(self.made(BANNER + "% a\n%\n1 1 0\n", (1, [])), (BANNER + "% a\n%\n1 1 0\n").encode())

    def test_matrix_of_suitesparse(self):
        """A file as the SuiteSparse collection has them: symmetric, remarks between rules, a pattern."""
        rule = "%" + "-" * 79 + "\n"
        head = rule + "% UF Sparse Matrix Collection, Tim Davis\n% name: Newman/dolphins\n" + rule
        written = self.made("%%MatrixMarket matrix coordinate pattern symmetric\n" + head + "4 4 3\n2 1\n3 2\n4 4\n",
                            (4, [(2, 1), (1, 2), (3, 2), (2, 3), (4, 4)]), "banner", "mirrors")
        self.assertIn(head.encode(), written)

    def test_matrix_of_nist(self):
        """A file as the Matrix Market itself has them: real values in Fortran's columns."""
        text = "%%MatrixMarket matrix coordinate real general\n  5  5  4\n    1     1  1.0000000000000e+00\n    2     2  1.0500000000000e+01\n"
        text += "    4     2  2.5050000000000e+02\n    1     4 -6.0000000000000D-01\n"
        self.made(text, (5, [(1, 1), (2, 2), (4, 2), (1, 4)]), "banner", "spaces", "values")

    def test_file_of_windows(self):
        self.made(BANNER.replace("\n", "\r\n") + "% by hand\r\n2 2 1\r\n1 2\r\n", (2, [(1, 2)]), "returns")
        self.made("\ufeff" + BANNER + "2 2 1\n1 2\n", (2, [(1, 2)]), "mark")

    def test_capitals(self):
        self.made("%%MATRIXMARKET MATRIX Coordinate Pattern GENERAL\n2 2 1\n1 2\n", (2, [(1, 2)]), "banner")
        self.made("%%MatrixMarket  matrix\tcoordinate pattern general \n2 2 1\n1 2\n", (2, [(1, 2)]), "banner")

    def test_spaces_blanks_and_comments(self):
        text = BANNER + "\n  % a\n\n2 2\t2\n\n% b\n1  2 \n%c\n2 1\n\n \n"
        written = self.made(text, (2, [(1, 2), (2, 1)]), "blank", "spaces", "comments")
        self.assertEqual(written, (BANNER + "% a\n2 2 2\n1 2\n2 1\n").encode())

    def test_no_last_line_feed(self):
        self.made(BANNER + "2 2 1\n1 2", (2, [(1, 2)]), "end")
        self.made(BANNER + "2 2 0", (2, []), "end")
        self.made(BANNER + "2 2 0\n% behind", (2, []), "comments", "end")

    def test_values(self):
        for field, values in (("real", ("1", "-.5e3", "0.0", "nan")), ("double", ("1.", "+2", "0", "-inf")), ("integer", ("7", "-7", "0", "+1")),
                              ("unsigned-integer", ("7", "1", "0", "2")), ("complex", ("1 2", "0 1", "0 0.0", "-1 -2"))):
            entries = "".join(f"{at} 1 {value}\n" for at, value in enumerate(values, 1))
            self.made(f"%%MatrixMarket matrix coordinate {field} general\n4 4 4\n{entries}", (4, [(at, 1) for at in range(1, 5)]), "banner", "values", "zeros")

    def test_mirrors(self):
        both = [(2, 1), (1, 2), (3, 3)]
        for symmetry in ("symmetric", "skew-symmetric", "Hermitian"):
            self.made(f"%%MatrixMarket matrix coordinate pattern {symmetry}\n3 3 2\n2 1\n3 3\n", (3, both), "banner", "mirrors")
        self.made("%%MatrixMarket matrix coordinate complex hermitian\n3 3 2\n2 1 1 1\n3 3 1 0\n", (3, both), "banner", "mirrors", "values")

    def test_numbers(self):
        self.made(BANNER + "3 3 2\n+1 2\n3 0000000000003\n", (3, [(1, 2), (3, 3)]), "signs")
        self.made(BANNER + "2 2 2\n1 2\n1 2\n", (2, [(1, 2), (1, 2)]))

    def test_long_comment(self):
        written = self.made(BANNER + "%" + "x" * 5000 + "\n% y\n1 1 0\n", (1, []), "long")
        self.assertEqual(written, (BANNER + "%" + "x" * 1023 + "\n% y\n1 1 0\n").encode())
        self.made(BANNER + "%" + "x" * 1023 + "\n1 1 0\n", (1, []))
        self.made(BANNER + "%" + "x" * 1023 + "\r\n1 1 0\n", (1, []), "returns")

    def test_comment_of_any_bytes(self):
        data = BANNER.encode() + b"% \xff\x00\xe4\n1 1 0\n"
        self.assertEqual(self.made(data, (1, [])), data)

    def test_packed(self):
        data = (BANNER + "2 2 1\n1 2\n").encode()
        for pack in (gzip.compress, bz2.compress):
            self.made(pack(data), (2, [(1, 2)]), "packed")
            status, out, said = self.run_on(pack(data)[:-9])
            self.assertEqual((status, out), (1, b""), said)
            self.assertTrue(said.startswith("market.py: standard input: ") and said.count("\n") == 1, said)

    def refused(self, text, line, said):
        with self.assertRaises(market.Fault, msg=text[:80]) as caught:
            self.made(text, None)
        self.assertEqual((caught.exception.line, str(caught.exception)), (line, said))

    def test_refused(self):
        form = "expected: %%MatrixMarket matrix coordinate FIELD SYMMETRY; found: "
        for text, line, said in (
            ("", 1, form + "''"),
            ("%MatrixMarket matrix coordinate pattern general\n1 1 0\n", 1, form + "'%MatrixMarket matrix coordinate pattern general'"),
            ("1 1 0\n", 1, form + "'1 1 0'"),
            ("%%MatrixMarket matrix coordinate pattern\n1 1 0\n", 1, form + "'%%MatrixMarket matrix coordinate pattern'"),
            ("%%MatrixMarket vector coordinate pattern general\n", 1,
             "a vector is no graph; expected: %%MatrixMarket matrix coordinate FIELD SYMMETRY"),
            ("%%MatrixMarket matrix array real general\n2 2\n1\n2\n3\n4\n", 1,
             "an array has a value for every place, and so no references; a graph is a coordinate file"),
            ("%%MatrixMarket matrix coordinate quaternion general\n", 1,
             "'quaternion' is none of pattern, real, double, integer, unsigned-integer, complex"),
            ("%%MatrixMarket matrix coordinate real lower\n", 1, "'lower' is none of general, symmetric, skew-symmetric, hermitian"),
            (BANNER, 1, "the file ends before its counts: ROWS COLUMNS ENTRIES"),
            (BANNER + "% a\n\n", 3, "the file ends before its counts: ROWS COLUMNS ENTRIES"),
            (BANNER + "2 2\n1 2\n", 2, "expected: ROWS COLUMNS ENTRIES; found: '2 2'"),
            (BANNER + "% a\n3 4 1\n1 2\n", 3, "3 rows and 4 columns: a graph has as many rows as columns"),
            (BANNER + "0 0 0\n", 2, "0 rows: a store has 1 to 65,536 objects"),
            (BANNER + "65537 65537 0\n", 2, "65,537 rows: a store has 1 to 65,536 objects"),
            (BANNER + "2 2 1048577\n", 2, "1,048,577 entries: a store has up to 1,048,576 references"),
            (BANNER + "2 2 -1\n", 2, "'-1' is no number of one to ten digits"),
            (BANNER + "2 2 12345678901\n", 2, "'12345678901' is no number of one to ten digits"),
            (BANNER + "2 2 1\n0 1\n", 3, "0 is no row or column: they are counted from 1 to 2"),
            (BANNER + "2 2 2\n1 2\n1 3\n", 4, "3 is no row or column: they are counted from 1 to 2"),
            (BANNER + "2 2 1\n1.0 2\n", 3, "'1.0' is no number of one to ten digits"),
            (BANNER + "2 2 1\n1 2 3\n", 3, "expected: ROW COLUMN; found: '1 2 3'"),
            ("%%MatrixMarket matrix coordinate real general\n2 2 1\n1 2\n", 3, "expected: ROW COLUMN VALUE; found: '1 2'"),
            ("%%MatrixMarket matrix coordinate complex general\n2 2 1\n1 2 1\n", 3, "expected: ROW COLUMN REAL IMAGINARY; found: '1 2 1'"),
            ("%%MatrixMarket matrix coordinate real general\n2 2 1\n1 2 1_0\n", 3, "'1_0' is no value"),
            (BANNER + "2 2 2\n1 2\n", 3, "the counts promise 2 entries, and there are 1"),
            (BANNER + "2 2 1\n1 2\n\n2 1\n", 5, "the counts promise 1 entries, and there are more"),
            (BANNER + "2 2 1\n" + "1" * 2000 + " 2\n", 3, "the line has more than 1,024 bytes"),
        ):
            with self.subTest(text=text[:80]):
                self.refused(text, line, said)

    def test_too_many_mirrors(self):
        """As many entries as a store may have, and their mirrors."""
        text = "%%MatrixMarket matrix coordinate pattern symmetric\n2 2 524289\n" + "2 1\n" * 524_289
        self.refused(text, 524_291, "with their mirrors more than 1,048,576 entries: a store has up to so many references")

    def test_command(self):
        odd = b"%%MatrixMarket matrix coordinate real symmetric\r\n2 2 1\r\n2 1 5\r\n"
        with tempfile.TemporaryDirectory() as work:
            source, target = Path(work) / "a graph.mtx", Path(work) / "out.mtx"
            source.write_bytes(odd)
            status, out, said = self.run_on(b"", source, target)
            self.assertEqual((status, out, target.read_bytes()), (0, b"", (BANNER + "2 2 2\n2 1\n1 2\n").encode()))
            name = f"market.py: {source}: "
            self.assertEqual(said.splitlines(), [
                name + "the first line is the one that import takes (line 1)",
                name + "carriage returns before line feeds are dropped (3 lines, the first is line 1)",
                name + "values are dropped (line 3)", name + "entries off the diagonal have their mirrors behind them (line 3)"])
            self.assertEqual(self.run_on(b"", "--check", source)[:2], (1, b""))
            self.assertEqual(self.run_on(b"", "--check", target), (0, b"", f"market.py: {target}: nothing is changed\n"))
            # What is refused leaves the file of before, and nothing beside it.
            source.write_bytes(odd.replace(b"2 1 5", b"0 1 5"))
            status, out, said = self.run_on(b"", source, target)
            self.assertEqual((status, out), (1, b""))
            self.assertEqual(said, f"market.py: {source}, line 3: 0 is no row or column: they are counted from 1 to 2\n")
            self.assertEqual(target.read_bytes(), (BANNER + "2 2 2\n2 1\n1 2\n").encode())
            self.assertEqual(sorted(path.name for path in Path(work).iterdir()), ["a graph.mtx", "out.mtx"])
            # A file onto itself.
            source.write_bytes(odd)
            self.assertEqual(self.run_on(b"", source, source)[0], 0)
            self.assertEqual(source.read_bytes(), target.read_bytes())
            status, out, said = self.run_on(b"", Path(work) / "none.mtx", target)
            self.assertEqual((status, out), (1, b""))
            self.assertIn("none.mtx: ", said)
        self.assertEqual(self.run_on(odd)[:2], (0, (BANNER + "2 2 2\n2 1\n1 2\n").encode()))
        self.assertEqual(self.run_on(b"", "-")[0], 2)
        self.assertEqual(self.run_on(b"", "--check", "-", "-")[0], 2)


if __name__ == "__main__":
    unittest.main()
