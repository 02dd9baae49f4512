"""Tests of tools/boundary.py on a copy of the files that it reads and writes, each with something changed."""

import contextlib
import io
import os
import re
import shutil
import subprocess
import tempfile
import unittest
from pathlib import Path

import boundary
from boundary import COMPARE, GO, GO_NUMBERS, HEADER, NUMBERS, PYTHON, PYTHON_NUMBERS, RAW, TOP, TYPED
from boundary_source import COUNTS, REFUSALS, TABLE, VERSION

EXPORTS = [f"crates/ffi_{name}/src/lib.rt" for name in ("mark", "schedule", "store", "update")]
MARK, SCHEDULE, STORE, UPDATE = EXPORTS
WRITTEN = (HEADER, NUMBERS, RAW, TYPED, COMPARE, GO, GO_NUMBERS, PYTHON, PYTHON_NUMBERS)
CALLS = tuple(path for path in WRITTEN if path not in (NUMBERS, GO_NUMBERS, PYTHON_NUMBERS))
# The files whose constants are written.
GRAPH, DESK, PLACES = "crates/graph/src/lib.rt", "crates/desk/src/lib.rt", "crates/desk/src/places.rt"
LEASES, CARDS = "crates/catalogue/src/check.rt", "crates/cards/src/table.rt"
HOPS, MARKING, NAMES = "crates/traverse/src/lib.rt", "crates/changes/src/marking.rt", "crates/names/src/lib.rt"
SOURCES = (*EXPORTS, COUNTS, REFUSALS, GRAPH, DESK, PLACES, LEASES, CARDS, HOPS, MARKING, NAMES)
HOP_WORDS = 'pub extern "C" fn kullneyra_hop_words(objects: u32, res: &mut [u64]) -> u32'
HOP_PAGES = '[calls.hop_pages]\nwords = "PAGES"\nrefusals = [4, 7]\nverb = "is"\ndoc = "How many pages {hops} takes."\n\n'


class Boundary(unittest.TestCase):
    def setUp(self):
        self.top = Path(tempfile.mkdtemp())
        for path in (*SOURCES, TABLE, VERSION, *WRITTEN):
            (self.top / path).parent.mkdir(parents=True, exist_ok=True)
            shutil.copy(TOP / path, self.top / path)

    def tearDown(self):
        shutil.rmtree(self.top)

    def text(self, path):
        return (self.top / path).read_text(encoding="utf-8")

    def edit(self, path, old, new):
        """The first place of a text changed; answers its line."""
        before = self.text(path)
        self.assertTrue(old in before, old)
        (self.top / path).write_text(before.replace(old, new, 1), encoding="utf-8")
        return before[: before.index(old)].count("\n") + 1

    def run_tool(self, *arguments):
        out = io.StringIO()
        with contextlib.redirect_stdout(out):
            status = boundary.main(list(arguments), self.top)
        return status, out.getvalue()

    def differing(self):
        """The files that the check names."""
        status, told = self.run_tool("--check")
        self.assertEqual(status, 1 if told else 0)
        return [line.removeprefix("boundary: ").split(":")[0] for line in told.splitlines()]

    def assert_fault(self, *parts):
        """Nothing is checked or written, and the one line that is printed has these parts."""
        before = [self.text(path) for path in WRITTEN]
        for arguments in (["--check"], []):
            status, told = self.run_tool(*arguments)
            self.assertEqual((status, told.count("\n")), (1, 1), told)
            for part in parts:
                self.assertIn(part, told)
        self.assertEqual(before, [self.text(path) for path in WRITTEN])

    def compiles(self, source):
        """The header as it was written, by a program over it."""
        command = ["gcc", "-fsyntax-only", "-Wall", "-Wextra", "-Werror", "-pedantic", f"-I{(self.top / HEADER).parent}"]
        subprocess.run([*command, "-std=c99", source], check=True)
        subprocess.run([*command, "-std=c++17", "-x", "c++", self.top / HEADER], check=True)

    def add_export(self, signature):
        """Another exported function in front of `kullneyra_hop_words`; answers its line."""
        self.edit(UPDATE, "#[unsafe(no_mangle)]\n" + HOP_WORDS, f"#[unsafe(no_mangle)]\n{signature} {{ 0 }}\n#[unsafe(no_mangle)]\n{HOP_WORDS}")
        return self.text(UPDATE)[: self.text(UPDATE).index(signature)].count("\n") + 1


class Files(Boundary):
    def test_as_committed(self):
        self.assertEqual(self.run_tool("--check"), (0, ""))
        self.assertEqual(self.run_tool(), (0, ""))
        for path in WRITTEN:
            self.assertEqual(self.text(path), (TOP / path).read_text(encoding="utf-8"))

    def test_changed_by_hand(self):
        for path, old, new in (
            (HEADER, "uint32_t object, uint64_t *result", "uint64_t object, uint64_t *result"),
            (HEADER, "const uint8_t *marks, size_t marks_len, const uint64_t", "uint8_t *marks, size_t marks_len, const uint64_t"),
            (HEADER, "uint64_t carrying;", "uint32_t carrying;"),
            (HEADER, "#define KULLNEYRA_CARD_WORKERS 6", "#define KULLNEYRA_CARD_WORKERS 7"),
            (HEADER, "#define KULLNEYRA_NO_SEED 16", "#define KULLNEYRA_NO_SEED 17"),
            (NUMBERS, "pub const CARD_WORKERS: u32 = 6;", "pub const CARD_WORKERS: u32 = 7;"),
            (NUMBERS, "Refusal::Seed => (16,", "Refusal::Seed => (17,"),
            (GO_NUMBERS, "CardWorkers    = 6 ", "CardWorkers    = 7 "),
            (GO_NUMBERS, "NoSeed     Refusal = 16", "NoSeed     Refusal = 17"),
            (HEADER, "                                            KULLNEYRA_SWEEP_WORDS);", "                                            KULLNEYRA_MARK_WORDS);"),
            (RAW, "            object: u32,", "            object: u64,"),
            (RAW, "            object,", "            0,"),
            (RAW, "offsets.len()", "targets.len()"),
            (TYPED, "pub fn hop_words(objects: u32)", "pub fn hop_words(objects: u64)"),
            (TYPED, "pub carrying: u64", "pub carrying: u32"),
            (COMPARE, "raw::sweep(marks, sizes, list, result)", "plain::sweep(marks, sizes, list, result)"),
            (GO, "size_t targets_len, uint32_t object)", "size_t targets_len, uint64_t object)"),
            (GO, "C.uint32_t(object)", "C.uint64_t(object)"),
            (GO, "Carrying: uint64(a.carrying),", "Carrying: uint64(a.moved),"),
            (PYTHON, "targets: &[u32], object: u32", "targets: &[u32], object: u64"),
            (PYTHON, "    carrying: int", "    carrying: bool"),
            (PYTHON_NUMBERS, "CARD_WORKERS = 6 ", "CARD_WORKERS = 7 "),
            (PYTHON_NUMBERS, "    NO_SEED = 16 ", "    NO_SEED = 17 "),
        ):
            line = self.edit(path, old, new)
            status, told = self.run_tool("--check")
            self.assertEqual((status, told.count("\n")), (1, 1), told)
            self.assertTrue(told.startswith(f"boundary: {path}:{line}: "), told)
            self.assertEqual(self.run_tool(), (0, ""))
            self.assertEqual(self.differing(), [])

    def test_more_less_or_none(self):
        for path in WRITTEN[1:]:
            text = self.text(path)
            for other in (text + "\n", text[:-1], ""):
                (self.top / path).write_text(other, encoding="utf-8")
                self.assertEqual(self.differing(), [path])
            (self.top / path).unlink()
            self.assertEqual(self.differing(), [path])
            self.assertEqual(self.run_tool(), (0, ""))
            self.assertEqual(self.text(path), text)

    def test_by_hand_around_the_marks(self):
        self.edit(HEADER, "#define KULLNEYRA_TALLIES(w) (4", "#define KULLNEYRA_TALLIES(w) (5")
        self.assertEqual(self.differing(), [])
        kept = self.text(HEADER)
        for written in (boundary.NUMBERS_WRITTEN, boundary.WRITTEN):
            self.edit(HEADER, f"/* From here on {written}. */", "")
            self.assert_fault(HEADER, written)
            (self.top / HEADER).write_text(kept, encoding="utf-8")
        (self.top / HEADER).write_text(kept.replace(boundary.END, ""), encoding="utf-8")
        self.assert_fault(HEADER, "/* Up to here. */")

    def test_not_there_or_no_text(self):
        """What cannot be read is told in a line, and nothing is written."""
        for path in (HEADER, *EXPORTS, COUNTS, REFUSALS, TABLE, VERSION):
            text = self.text(path)
            (self.top / path).unlink()
            for words in ((), ("--check",)):
                status, told = self.run_tool(*words)
                self.assertEqual((status, told.count("\n")), (1, 1), told)
                self.assertIn(Path(path).name, told)
            (self.top / path).write_bytes(b"\xff")
            self.assertEqual(self.run_tool()[0], 1)
            (self.top / path).write_text(text, encoding="utf-8")
            self.assertEqual(self.differing(), [])

    def test_usage(self):
        self.assertEqual(self.run_tool("--write")[0], 2)


class Signatures(Boundary):
    def test_a_type_reaches_every_file(self):
        for source, old, new in (
            (UPDATE, "kullneyra_hop_words(objects: u32,", "kullneyra_hop_words(objects: u64,"),
            (STORE, "    object: u32,", "    object: usize,"),
            (MARK, "    list: &mut [u32],", "    list: &mut [u64],"),
            (MARK, "    marks: &[u8],", "    marks: &[u32],"),
            (STORE, "kullneyra_export(offsets: &[u32], targets: &[u32], out: &mut [u8])", "kullneyra_export(targets: &[u32], offsets: &[u32], out: &mut [u8])"),
        ):
            self.edit(source, old, new)
            # The crate's function `references` is by hand.
            self.assertEqual(self.differing(), [path for path in CALLS if path != TYPED or "object: u32" not in old])
            self.assertEqual(self.run_tool(), (0, ""))

    def test_a_new_call(self):
        line = self.add_export(HOP_WORDS.replace("hop_words", "hop_pages"))
        self.assert_fault(f"{UPDATE}:{line}: kullneyra_hop_pages has no row")
        self.edit(TABLE, "[calls.hops]", f"{HOP_PAGES}[calls.hops]")
        self.assertEqual(self.differing(), list(CALLS))
        self.assertEqual(self.run_tool(), (0, ""))
        for path, parts in {
            HEADER: ("kullneyra_hop_pages(uint32_t objects, uint64_t *result, size_t result_len);", "kullneyra_hop_pages_into(", "KULLNEYRA_PAGES_WORDS 1"),
            RAW: ("pub fn kullneyra_hop_pages(objects: u32, result: *mut u64, result_len: usize) -> u32;", "pub fn hop_pages(objects: u32, result: &mut [u64]) -> u32"),
            TYPED: ("/// How many pages [`hops`] takes.\npub fn hop_pages(objects: u32) -> Result<u64, Refusal>",),
            COMPARE: ('"hop_pages",', "        &[0, 4, 7],\n        &[0, 4, 7],\n", "raw::hop_pages(objects, result)", "kullneyra::hop_pages(objects)"),
            GO: ("// HopPages is how many pages Hops takes.\nfunc HopPages(objects uint32) (uint64, error)",),
            PYTHON: ('_hop_pages = Call("hop_pages", "objects: u32", "u64", 1)', 'def hop_pages(objects: int) -> int:\n    """How many pages `hops` takes."""'),
        }.items():
            for part in parts:
                self.assertTrue(part in self.text(path), part)
        self.compiles(TOP / "runtime/c/collect.c")

    def test_which_calls_are_of_numbers(self):
        row = 'make: |side, given, result| side.hop_words(given[0] as u32, result),'
        kept = self.text(UPDATE)
        self.assertIn(row, self.text(COMPARE))
        calls = self.text(COMPARE).count("    NumberCall {")
        for new, is_one in (
            ("objects: u64, res: &mut [u64]", "side.hop_words(given[0], result)"),
            ("cards: usize, objects: u32, res: &mut [u64]", "side.hop_words(given[0] as usize, given[1] as u32, result)"),
            ("objects: &[u32], res: &mut [u64]", ""),
            ("objects: u32, list: &mut [u32], res: &mut [u64]", ""),
            ("objects: u32, res: &mut [u32]", ""),
            ("res: &mut [u64]", ""),
        ):
            self.edit(UPDATE, "kullneyra_hop_words(objects: u32, res: &mut [u64])", f"kullneyra_hop_words({new})")
            self.assertEqual(self.run_tool(), (0, ""))
            text = self.text(COMPARE)
            with self.subTest(new):
                # Where it is none, the compiler asks for a variant and a function by hand.
                self.assertEqual("Call::HopWords { .. } => 13," in text, not is_one)
                self.assertEqual("plain::hop_words(" in text, not is_one)
                self.assertEqual("reference::hop_words(" in text, bool(is_one))
                self.assertEqual(text.count("    NumberCall {"), calls - (not is_one))
                self.assertIn(is_one, text)
            (self.top / UPDATE).write_text(kept, encoding="utf-8")
        # Several result words are not one number.
        self.edit(TABLE, 'fields = { bytes = "" }', 'fields = { bytes = "", turns = "" }')
        self.assertEqual(self.run_tool(), (0, ""))
        self.assertIn("Call::ScheduleLength { .. } => 9,", self.text(COMPARE))

    def test_a_call_of_numbers_needs_no_other_file(self):
        shutil.copytree(TOP / "runtime/rust", self.top / "runtime/rust", dirs_exist_ok=True)
        (self.top / "libkullneyra.a").touch()
        self.add_export(HOP_WORDS.replace("hop_words(", "hop_pages(width: u64, "))
        self.edit(TABLE, "[calls.hops]", f"{HOP_PAGES}[calls.hops]")
        self.assertEqual(self.run_tool(), (0, ""))
        status, told = self.check_compare()
        self.assertNotEqual(status, 0)
        self.assertEqual([line for line in told.splitlines() if line.startswith("error")][0], "error[E0425]: cannot find function `hop_pages` in crate `reference`", told)
        text = "pub fn hop_pages(width: u64, objects: u32) -> Result<u64, u8> {\n    Ok(width * hop_words(objects)?)\n}\n\n/// How many work"
        self.edit("runtime/rust/reference/src/hops.rs", "/// How many work", text)
        self.assertEqual(self.check_compare(), (0, ""))

    def check_compare(self):
        """What the compiler says of the comparison in the copy, where warnings are errors."""
        place = {"CARGO_TARGET_DIR": str(self.top / "target"), "KULLNEYRA_LIB_DIR": str(self.top), "RUSTFLAGS": "-D warnings"}
        command = ["cargo", "check", "--offline", "--quiet", "--package", "compare", "--manifest-path"]
        done = subprocess.run([*command, self.top / "runtime/rust/Cargo.toml"], env={**os.environ, **place}, capture_output=True, text=True)
        return done.returncode, done.stderr

    def test_a_comment_is_no_call(self):
        self.edit(SCHEDULE, "#[unsafe(no_mangle)]", f"// #[unsafe(no_mangle)]\n// {HOP_WORDS}\n#[unsafe(no_mangle)]")
        self.assertEqual(self.differing(), [])

    def test_not_understood(self):
        one = "kullneyra_hop_words(objects: u32, res: &mut [u64]) -> u32"
        kept = self.text(UPDATE)
        for new in (
            "kullneyra_hop_words(objects: u16, res: &mut [u64]) -> u32",
            "kullneyra_hop_words(objects: bool, res: &mut [u64]) -> u32",
            "kullneyra_hop_words(objects: &[u16], res: &mut [u64]) -> u32",
            "kullneyra_hop_words(objects: [u32; 4], res: &mut [u64]) -> u32",
            "kullneyra_hop_words(objects: *const u32, res: &mut [u64]) -> u32",
            "kullneyra_hop_words(objects: Option<&[u8]>, res: &mut [u64]) -> u32",
            "kullneyra_hop_words(objects, res: &mut [u64]) -> u32",
            "kullneyra_hop_words(objects: u32, res: &mut [u64]) -> u64",
            "kullneyra_hop_words(res: &mut [u64], objects: u32) -> u32",
            "kullneyra_hop_words(objects: u32, res: &[u64]) -> u32",
            "kullneyra_hop_words(objects: u32, res: &mut [u8]) -> u32",
            "kullneyra_hop_words(objects: u32, res: u64) -> u32",
            "kullneyra_header(objects: u32, res: &mut [u64]) -> u32",
            "hop_words(objects: u32, res: &mut [u64]) -> u32",
        ):
            line = self.edit(UPDATE, one, new)
            self.assert_fault(f"{UPDATE}:{line}: ")
            (self.top / UPDATE).write_text(kept, encoding="utf-8")
        lead = '#[unsafe(no_mangle)]\npub extern "C" fn '
        for old, new in (
            (lead + one, lead + "kullneyra_hop_words(objects: (u32, u32), res: &mut [u64]) -> u32"),
            (lead + one, lead + "kullneyra_hop_words<T>(objects: u32, res: &mut [u64]) -> u32"),
            (lead + one, lead + "kullneyra_hop_words(objects: u32, res: &mut [u64])"),
            (lead + "kullneyra_hop_words", 'pub extern "C" fn kullneyra_hop_words'),
            (lead + "kullneyra_hop_words", "#[unsafe(no_mangle)]\npub fn kullneyra_hop_words"),
            (lead + "kullneyra_hop_words", '#[unsafe(no_mangle)]\nextern "C" fn kullneyra_hop_words'),
            (lead + "kullneyra_hop_words", '#[unsafe(no_mangle)]\npub extern "system" fn kullneyra_hop_words'),
            ("#[unsafe(no_mangle)]\npub", '#[unsafe(export_name = "kullneyra_header")]\npub'),
        ):
            line = self.edit(UPDATE, old, new)
            self.assert_fault(f"{UPDATE}:{line}: a signature that is not understood")
            (self.top / UPDATE).write_text(kept, encoding="utf-8")

    def test_an_export_elsewhere(self):
        """Only the crates ffi_* are linked, so an export of another would be missing without a word."""
        line = self.edit(COUNTS, "pub struct Counts", f"#[unsafe(no_mangle)]\n{HOP_WORDS} {{ 0 }}\n\npub struct Counts")
        self.assert_fault(f"{COUNTS}:{line}: only ")

    def test_a_parameter_in_its_line(self):
        line = self.edit(STORE, "    object: u32,\n", "    object: u8,\n")
        self.assert_fault(f"{STORE}:{line}: kullneyra_references: not understood: object: u8")


class Counts(Boundary):
    def test_a_new_count(self):
        self.edit(COUNTS, "    pub carrying: u64,\n", "    pub parked: u64,\n    pub carrying: u64,\n")
        self.assert_fault("does not say what the count parked is")
        self.edit(TABLE, 'live = "marked objects"\n', 'live = "marked objects"\nparked = "workers that wait"\n')
        self.assertEqual(self.differing(), list(CALLS))
        self.assertEqual(self.run_tool(), (0, ""))
        for path, parts in {
            HEADER: ("uint64_t moved;    /* turns that changed something */\n    uint64_t parked;   /* workers that wait */", "X(moved) X(parked) X(carrying)"),
            RAW: ("moved, parked, carrying.",),
            TYPED: ("    /// Workers that wait.\n    pub parked: u64,", '"moved", "parked", "carrying"', "pub const WORDS: usize = 8;", "u64::from(finished), live, followed, handed, refused, moved, parked, carrying]"),
            COMPARE: ("[3, 4, 2, 8, 8, 1, 9, 9,",),
            GO: ("Parked   uint64 // workers that wait", "Parked:   uint64(a.parked),"),
            PYTHON: ("    parked: int  # workers that wait\n", "moved, parked, carrying = words"),
        }.items():
            for part in parts:
                self.assertTrue(part in self.text(path), part)
        # The C example prints every count by the header's list.
        self.compiles(TOP / "runtime/c/collect.c")

    def test_fields_that_stand_before_others(self):
        kept = self.text(TABLE)
        for new in ("marking", "stopped"):
            self.edit(TABLE, 'begins = "marked"', f'begins = "{new}"')
            self.assert_fault(f"[records.stopped]: no record {new} to begin with")
            (self.top / TABLE).write_text(kept, encoding="utf-8")
        self.edit(TABLE, 'fields = { sound = "1 if', 'fields = { live = "1 if')
        self.assert_fault("[records.stopped]: marked has a field live, too")

    def test_many_counts_fit(self):
        names = [f"count_{number}" for number in range(12)]
        self.edit(COUNTS, "    pub carrying: u64,\n", "".join(f"    pub {name}: u64,\n" for name in ("carrying", *names)))
        self.edit(TABLE, 'live = "marked', "".join(f'{name} = "{name}"\n' for name in names) + 'live = "marked')
        self.assertEqual(self.run_tool(), (0, ""))
        self.assertTrue(all(len(line) <= 120 for path in (HEADER, TYPED) for line in self.text(path).split("\n")))
        self.compiles(TOP / "runtime/c/collect.c")

    def test_not_understood(self):
        kept = self.text(COUNTS)
        for new in ("pub carrying: u32,", "carrying: u64,", "pub carrying: Option<u64>,"):
            line = self.edit(COUNTS, "pub carrying: u64,", new)
            self.assert_fault(f"{COUNTS}:{line}: not understood: {new}")
            (self.top / COUNTS).write_text(kept, encoding="utf-8")
        self.edit(COUNTS, "    pub carrying: u64,\n", "")
        self.assert_fault(f"{COUNTS} has no count carrying")
        self.edit(COUNTS, "pub struct Counts {", "pub struct Numbers {")
        self.assert_fault(f"{COUNTS}: no struct Counts")


class Numbers(Boundary):
    def test_a_changed_constant(self):
        """A constant of the crates that is another number is another one in every language."""
        for path, old, new, c, rust, go in (
            (GRAPH, "MOST_OBJECTS: usize = 65536", "131072", "KULLNEYRA_MOST_OBJECTS 131072 ", "MOST_OBJECTS: usize = 131_072;", "MostObjects    = 131072 "),
            (GRAPH, "MOST_REFERENCES: usize = 1048576", "5", "KULLNEYRA_MOST_REFERENCES 5 ", "MOST_REFERENCES: usize = 5;", "MostReferences = 5 "),
            (GRAPH, "LARGEST_SIZE: u64 = 1099511627776", "7", "KULLNEYRA_LARGEST_SIZE UINT64_C(7) ", "LARGEST_SIZE: u64 = 7;", "LargestSize    = 7 "),
            (GRAPH, "MOST_STARTS: usize = 257", "258", "KULLNEYRA_STARTS ((size_t)258) ", "STARTS: usize = 258;", "Starts         = 258 "),
            (LEASES, "MOST_LEASES: u32 = 256", "257", "KULLNEYRA_MOST_LEASES 257 ", "MOST_LEASES: usize = 257;", "MostLeases     = 257 "),
            (DESK, "MOST_WORKERS: u32 = 16", "32", "KULLNEYRA_MOST_WORKERS 32 ", "MOST_WORKERS: u32 = 32;", "MostWorkers    = 32 "),
            (DESK, "MOST_SETTING: u32 = 65535", "255", "KULLNEYRA_MOST_SETTING 255 ", "MOST_SETTING: u32 = 255;", "MostSetting    = 255 "),
            (CARDS, "DECK_SIZE: usize = 720", "5040", "KULLNEYRA_DECK 5040 ", "DECK: u32 = 5_040;", "Deck           = 5040 "),
            (CARDS, "CARD_WORKERS: u32 = 6", "7", "KULLNEYRA_CARD_WORKERS 7 ", "CARD_WORKERS: u32 = 7;", "CardWorkers    = 7 "),
            (HOPS, "NONE: u32 = 4294967295", "4294967294", "KULLNEYRA_NO_HOPS 4294967294u ", "NO_HOPS: u32 = 4_294_967_294;", "NoHops         = 4294967294 "),
            (MARKING, "NEW: u8 = 255", "254", "KULLNEYRA_NEWLY_LIVE 254 ", "NEWLY_LIVE: u8 = 254;", "NewlyLive      = 254 "),
        ):
            with self.subTest(old):
                name = old.split(" = ")[0]
                self.edit(path, old, f"{name} = {new}")
                self.assertEqual(self.differing(), [HEADER, NUMBERS, GO_NUMBERS, PYTHON_NUMBERS])
                self.assertEqual(self.run_tool(), (0, ""))
                self.assertIn(f"#define {c}", self.text(HEADER))
                self.assertIn(f"pub const {rust}", self.text(NUMBERS))
                self.assertIn(f"\t{go}", self.text(GO_NUMBERS))
        self.compiles(TOP / "runtime/c/collect.c")

    def test_every_constant_of_the_header_is_written(self):
        """By hand there are only the lengths of buffers, which are macros of numbers."""
        text = self.text(HEADER)
        numbers, calls = (text.index(f"/* From here on {written}") for written in (boundary.NUMBERS_WRITTEN, boundary.WRITTEN))
        by_hand = text[:numbers] + text[text.index(boundary.END) : calls]
        plain = [line for line in by_hand.splitlines() if re.match(r"#define \w+(?!\w|\()", line)]
        self.assertEqual(plain, ["#define KULLNEYRA_H"])

    def test_another_version(self):
        (self.top / VERSION).write_text("2.10.0\n")
        self.assertEqual(self.differing(), [HEADER, NUMBERS, GO_NUMBERS, PYTHON_NUMBERS])
        self.assertEqual(self.run_tool(), (0, ""))
        numbers = ("MAJOR 2", "MINOR 10", "PATCH 0")
        self.assertIn('#define KULLNEYRA_VERSION "2.10.0"\n' + "".join(f"#define KULLNEYRA_VERSION_{one}\n" for one in numbers), self.text(HEADER))
        self.assertIn('pub const VERSION: &str = "2.10.0";', self.text(NUMBERS))
        self.assertIn('const Version = "2.10.0"\n', self.text(GO_NUMBERS))
        self.assertIn('VERSION = "2.10.0"\n', self.text(PYTHON_NUMBERS))
        for wrong in ("1.0", "1.0.0", "1.0.0-rc1\n", "v1.0.0\n", "01.0.0\n", "1.0.0\n\n", "1..0\n"):
            (self.top / VERSION).write_text(wrong)
            self.assert_fault(f"VERSION: not understood: {wrong.strip()}")

    def test_constants_that_are_not_there(self):
        kept = self.text(CARDS)
        one = "pub const CARD_WORKERS: u32 = 6;"
        for new in (one.replace("WORKERS", "WORKER"), one.replace("6", "3 + 3"), f"// {one}", one.replace("u32", "bool")):
            self.edit(CARDS, one, new)
            self.assert_fault("[constants.CARD_WORKERS]: crates/cards/src/table.rt has no constant CARD_WORKERS that is a number")
            (self.top / CARDS).write_text(kept, encoding="utf-8")
        self.edit(MARKING, "NEW: u8 = 255", "NEW: u8 = 256")
        self.assert_fault("[constants.NEWLY_LIVE]: 256 is no u8")

    def test_rows_of_constants(self):
        kept = self.text(TABLE)
        for old, new, told in (
            ('of = "cards::table::DECK_SIZE"\n', "", "[constants.DECK] has no of"),
            ('of = "cards::table::DECK_SIZE"', 'of = "cards::tables::DECK_SIZE"', "[constants.DECK]: crates/cards/src/tables.rt has no constant"),
            ('of = "cards::table::DECK_SIZE"', 'of = "cards::table::DECK_SIZE"\nnumber = 720', "[constants.DECK]: number is not understood"),
            ('of = "cards::table::DECK_SIZE"\nrust = "u32"', 'of = "cards::table::DECK_SIZE"\nrust = "f32"', "[constants.DECK]: f32 is no type of a constant"),
            ('c = "((size_t)%s)"', 'c = "((size_t)257)"', "[constants.STARTS]: %s stands for the number in c, once"),
        ):
            self.edit(TABLE, old, new)
            with self.subTest(new):
                self.assert_fault(told)
            (self.top / TABLE).write_text(kept, encoding="utf-8")

    def test_a_record_of_so_many_words(self):
        self.edit(PLACES, "pub const TALLY: usize = 4;", "pub const TALLY: usize = 5;")
        self.assert_fault("[records.tally] has 4 fields, and desk::places::TALLY is another number")

    def test_a_new_refusal(self):
        self.edit(REFUSALS, "            Refusal::Names => 19,\n", "            Refusal::Names => 19,\n            Refusal::Late => 20,\n")
        self.assert_fault("crates/refusal/src/lib.rt has the cause Late, which has no row in [refusals]")
        self.edit(TABLE, "\n# The constants:", '\n[refusals.Late]\nc = "LATE"\ngo = "TooLate"\nwords = "too late"\n\n# The constants:')
        self.assertEqual(self.differing(), [HEADER, NUMBERS, GO_NUMBERS, PYTHON_NUMBERS])
        self.assertEqual(self.run_tool(), (0, ""))
        for path, parts in {
            HEADER: ("#define KULLNEYRA_LATE 20 /* too late */", 'case KULLNEYRA_LATE:\n        return "too late";'),
            NUMBERS: ("    /// 20: too late.\n    Late,", "const NAMED: [Refusal; 18]", 'Refusal::Late => (20, "too late"),'),
            GO_NUMBERS: ("TooLate    Refusal = 20 // too late", 'TooLate:    "too late",'),
            PYTHON_NUMBERS: ("    LATE = 20  # too late\n", 'Cause.LATE: "too late",'),
        }.items():
            for part in parts:
                self.assertTrue(part in self.text(path), part)

    def test_refusals_that_do_not_fit(self):
        kept, table = self.text(REFUSALS), self.text(TABLE)
        for old, new, told in (
            ("Refusal::Names => 19,", "Refusal::Names => 20,", "the numbers are not 1 to 19"),
            ("Refusal::Names => 19,", "Refusal::Names => 18,", "the numbers are not 1 to 19"),
            ("Refusal::Text => 18,", "Refusal::Text => 9 + 9,", "not understood: Refusal::Text => 9 + 9,"),
            ("            Refusal::Names => 19,\n", "", "[refusals.Names]: crates/refusal/src/lib.rt has no cause Names"),
            ("impl From<Refusal> for u8", "impl From<Refusal> for u16", "no number of each Refusal"),
        ):
            self.edit(REFUSALS, old, new)
            with self.subTest(new):
                self.assert_fault(told)
            (self.top / REFUSALS).write_text(kept, encoding="utf-8")
        for old, new, told in (
            ('c = "TEXT"\n', "", "[refusals.Text] has no c"),
            ('c = "TEXT"\n', 'c = "TEXT"\nnumber = 18\n', "[refusals.Text]: number is not understood"),
            ('words = "the first word of a seed is 0"\n', "", "[refusals.Seed] has no words"),
            ("a size above {LARGEST_SIZE}", "a size above {LARGEST}", "{LARGEST} is no call, no record, no refusal"),
        ):
            self.edit(TABLE, old, new)
            with self.subTest(new):
                self.assert_fault(told)
            (self.top / TABLE).write_text(table, encoding="utf-8")

    def test_refusals_that_change_places(self):
        self.edit(REFUSALS, "Refusal::Seed => 16,", "Refusal::Seed => 17,")
        self.edit(REFUSALS, "Refusal::Marks => 17,", "Refusal::Marks => 16,")
        self.assertEqual(self.run_tool(), (0, ""))
        self.assertIn("#define KULLNEYRA_NOT_CLOSED 16 ", self.text(HEADER))
        self.assertIn('Refusal::Marks => (16, "a marked object', self.text(NUMBERS))
        self.assertIn("NotClosed  Refusal = 16 ", self.text(GO_NUMBERS))
        self.assertIn("    NOT_CLOSED = 16 ", self.text(PYTHON_NUMBERS))

    def test_words_are_the_same_everywhere(self):
        self.edit(TABLE, 'words = "the first word of a seed is 0"', 'words = "a seed of 0"')
        self.assertEqual(self.run_tool(), (0, ""))
        for path in (HEADER, NUMBERS, GO_NUMBERS, PYTHON_NUMBERS):
            self.assertIn('"a seed of 0"', self.text(path))


class Table(Boundary):
    def test_what_does_not_fit(self):
        kept = self.text(TABLE)
        for old, new, told in (
            ("[calls.hops]", "[calls.hopps]", "[calls.hopps]: crates/ffi_*/src/lib.rt has no kullneyra_hopps"),
            ('words = "HOP"\n', "", "[calls.hop_words]: a call with result words has one of answer and words"),
            ('words = "HOP"\n', 'words = "HOP"\nanswer = "length"\n', "[calls.hop_words]: a call with result words has one"),
            ("[calls.hops]\n", '[calls.hops]\nwords = "HOPS"\n', "[calls.hops]: a call with result words has one"),
            ('answer = "swept"', 'answer = "sweeped"', "[calls.sweep]: no record sweeped"),
            ('answer = "swept"', 'answer = "head"', "[records.head]: its words have 2 types"),
            ('answer = "swept"', 'answer = "part"', "[records.swept]: its words have 0 types"),
            ('verb = "gives"', 'verbs = "gives"', "[calls.hops]: verbs is not understood"),
            ('doc = "Reads only the', 'c = "Reads only the', "[calls.header] has no doc"),
            ("fields = { card = \"\" }", "", "[records.drawn] has no fields"),
            ("work words {hops} takes", "work words {hopps} takes", "{hopps} is no call, no record, no refusal, no constant and no name"),
            ('gives = "g.Offsets, g.Targets"', 'gives = "g.Offsets"', "g Graph takes 2 and gives 1"),
            ('moved = "turns', 'gone = "turns', "does not say what the count moved is"),
            ("[calls.sweep]", "[calls.mark]", TABLE),
            ("\n[names]\n", "\n[nouns]\n", "is not"),
            ("refusals = [4, 6, 7]", "refusals = [4, 6, 7, 20]", "[calls.sweep]: crates/refusal/src/lib.rt has no refusal 20"),
            (', python = "refusal" }', " }", "[names]: fault is said in c, rust, go and python"),
            ("the fields of {tally}", "the fields of {part}", "{part} has no name in rust"),
            ("[[groups.compare]]", "[[groups.compared]]", "[groups]: rust, go, python and compare"),
            ('as = "g Graph"\n', "", "[groups.go]: a row has takes, as, gives"),
            ("refusals = [4, 6, 7]\n", "", "[calls.sweep] has no refusals"),
            ("refusals = [4, 6, 7]\n", "refusals = []\n", "[calls.sweep] has no refusals"),
            ("refusals = [4, 6, 7]", "refusal = [4, 6, 7]", "[calls.sweep]: refusal is not understood"),
            *(
                ("refusals = [4, 6, 7]", f"refusals = {wrong}", "[calls.sweep]: refusals are numbers above 0, each once, upwards")
                for wrong in ("[0, 4, 6, 7]", "[4, 7, 6]", "[4, 6, 6, 7]", "[4, 6, 7, 8.0]", '["4", "6", "7"]', "[true, 4, 6, 7]", "7", '"467"')
            ),
            ("refusals = [4, 6, 7]", "refusals = [4, 6]", "[calls.sweep]: a call that is lent a buffer refuses with 7, too"),
            ("refusals = [7, 8, 15]\nverb = \"makes\"", "refusals = [8, 15]\nverb = \"makes\"", "[calls.deal]: a call that is lent"),
        ):
            self.edit(TABLE, old, new)
            with self.subTest(new):
                self.assert_fault(told)
            (self.top / TABLE).write_text(kept, encoding="utf-8")
        self.edit(TABLE, kept[kept.index("[calls.hops]") : kept.index("[calls.update_words]")], "")
        self.assert_fault(f"{UPDATE}:", "kullneyra_hops has no row in tools/boundary.toml")

    def test_a_text_reaches_every_language(self):
        self.edit(TABLE, "Reads only the catalogue's header record.", "Reads the header as {read} does.")
        self.assertEqual(self.run_tool(), (0, ""))
        self.assertIn("/* Reads the header as kullneyra_read does. */\nuint32_t kullneyra_header(", self.text(HEADER))
        self.assertIn("/// Reads the header as [`read`] does.\npub fn header(", self.text(TYPED))
        self.assertIn("// Header reads the header as Read does.\nfunc Header(", self.text(GO))
        self.assertIn('def header(bytes: Read) -> Header:\n    """Reads the header as `read` does."""', self.text(PYTHON))


if __name__ == "__main__":
    unittest.main()
