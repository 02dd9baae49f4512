"""One version everywhere: what tools/boundary.py does not write is compared with the file VERSION."""

import re
import unittest
from pathlib import Path

TOP = Path(__file__).resolve().parents[2]
VERSION = (TOP / "VERSION").read_text(encoding="utf-8").strip()


def found(path, pattern):
    """What the pattern's group matches first in a file."""
    match = re.search(pattern, (TOP / path).read_text(encoding="utf-8"), re.MULTILINE)
    return match and match[1]


class Version(unittest.TestCase):
    def test_what_is_written_by_hand(self):
        for path, pattern in (
            ("CHANGELOG.md", r"^## (\d\S*)$"),
            ("debian/changelog", r"^kullneyra \((.*)\) "),
            ("runtime/rust/kullneyra/Cargo.toml", r'^version = "(.*)"$'),
            ("runtime/rust/pause/Cargo.toml", r'^version = "(.*)"$'),
            ("runtime/rust/Cargo.lock", r'^name = "kullneyra"\nversion = "(.*)"$'),
            ("tests/runtime/own/Cargo.lock", r'^name = "kullneyra"\nversion = "(.*)"$'),
        ):
            with self.subTest(path):
                self.assertEqual(found(path, pattern), VERSION)

    def test_nobody_has_another(self):
        """The commands and the installed files take the number from those that are compared."""
        self.assertEqual(found("runtime/go/cmd/kullneyra-oci/main.go", r"^const version = (.*)$"), "kullneyra.Version")
        self.assertEqual(found("runtime/kullneyra.pc.in", r"^Version: (.*)$"), "@VERSION@")
        self.assertEqual(found("runtime/cmake/kullneyraConfigVersion.cmake.in", r'^set\(PACKAGE_VERSION "(.*)"\)$'), "@VERSION@")
        major = VERSION.partition(".")[0]
        self.assertEqual(found("runtime/kullneyra.map", r"^KULLNEYRA_(\d+) \{$"), major)
        self.assertEqual(found("debian/control", r"^Package: libkullneyra(\d+)$"), major)


if __name__ == "__main__":
    unittest.main()
