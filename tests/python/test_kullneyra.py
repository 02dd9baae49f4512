"""The Python module: each call with its answer and refused, buffers that overlap or do not fit, drawn graphs, threads."""

import ctypes
import doctest
import inspect
import os
import random
import struct
import subprocess
import sys
import threading
import unittest
from array import array
from dataclasses import astuple

import kullneyra
from kullneyra import Buffers, Cause, Graph, Owner, Refusal, Renewed, Seed, Settings, longs, words

# Store S of the specification: 0→1, 0→2, 1→3, 2→3, 3→0, 5→4.
STORE_S = Graph([0, 2, 3, 4, 5, 5, 6], [1, 2, 3, 3, 0, 4])


def catalogue_s():
    """The catalogue of store S, whose sizes are 100 to 600."""
    records = [struct.pack("<HHIII", 16, 1, 6, 6, 0)]
    records += [struct.pack("<HHQ", 12, 2, size) for size in range(100, 700, 100)]
    for v in range(6):
        records += [struct.pack("<HHII", 12, 3, v, target) for target in STORE_S.targets[STORE_S.offsets[v] : STORE_S.offsets[v + 1]]]
    return b"".join(records)


def drawn(rng, n):
    """A graph of n objects, its starts, and what they reach, worked out here."""
    offsets, targets = [0], []
    for _ in range(n):
        targets += [rng.randrange(n) for _ in range(rng.randrange(4))]
        offsets.append(len(targets))
    starts = [rng.randrange(n) for _ in range(1 + rng.randrange(3))]
    reached, todo = set(), list(starts)
    while todo:
        v = todo.pop()
        if v not in reached:
            reached.add(v)
            todo += targets[offsets[v] : offsets[v + 1]]
    return Graph(offsets, targets), starts, reached


def check(rng):
    """A finished collection marks exactly what is reachable; hops tell the same objects."""
    n = 1 + rng.randrange(30)
    graph, starts, reached = drawn(rng, n)
    workers = 1 + rng.randrange(6)
    rounds = 7 * len(graph.targets) + 4 * workers + 2
    schedule = bytearray(kullneyra.schedule_length(rounds, workers))
    Seed(1 + rng.randrange(1000), rng.randrange(1 << 32)).deal_seed(rounds, workers, schedule)
    buffers = Buffers.of(n, workers)
    settings = Settings(workers, 1 + rng.randrange(5), 1 + rng.randrange(5))
    marked = kullneyra.mark(graph, starts, settings, schedule, buffers)
    whole, hops = Buffers.of(n, workers), words(n)
    every = kullneyra.mark_all(graph, starts, settings, whole)
    kullneyra.hops(graph, starts, hops, words(kullneyra.hop_words(n)))
    found = [{v for v in range(n) if told[v]} for told in (buffers.marks, whole.marks, [hop != kullneyra.NO_HOPS for hop in hops])]
    assert marked.finished and every.finished and found == 3 * [reached], (graph, starts, marked, every, found, reached)


def load_tests(_loader, tests, _pattern):
    """The example of the module's front page, too."""
    tests.addTests(doctest.DocTestSuite(kullneyra))
    return tests


class Calls(unittest.TestCase):
    def refused(self, number, call, *given):
        with self.assertRaises(Refusal) as raised:
            call(*given)
        self.assertEqual(raised.exception.number, number)

    def test_version(self):
        self.assertEqual(kullneyra.library_version(), kullneyra.VERSION)
        self.assertEqual(kullneyra.__version__, kullneyra.VERSION)

    def test_every_name_is_there(self):
        for name in kullneyra.__all__:
            self.assertTrue(hasattr(kullneyra, name), name)

    def test_catalogue(self):
        catalogue = catalogue_s()
        self.assertEqual(astuple(kullneyra.header(catalogue)), (6, 6, 0))
        self.refused(Cause.SHORT, kullneyra.header, catalogue[:15])
        offsets, targets, sizes, starts = words(7), words(6), longs(6), words(kullneyra.STARTS)
        self.assertEqual(astuple(kullneyra.read(catalogue, offsets, targets, sizes, starts)), (6, 6, 0, 1))
        self.refused(1, kullneyra.read, catalogue[1:], offsets, targets, sizes, starts)
        self.refused(7, kullneyra.read, catalogue, offsets, targets, sizes[1:], starts)
        self.assertEqual((list(offsets), list(targets)), (STORE_S.offsets, STORE_S.targets))
        self.assertEqual((list(sizes), list(starts[:2])), ([100, 200, 300, 400, 500, 600], [0, 0]))
        self.assertEqual(kullneyra.references(STORE_S, 0), [1, 2])
        self.assertEqual(kullneyra.references(STORE_S, 6), [])

    def test_a_collection(self):
        settings, buffers, saved = Settings(workers=1, batch=2, cutoff=1), Buffers.of(6, 1), words(50)
        self.assertEqual(astuple(kullneyra.mark(STORE_S, [0], settings, bytes(24), buffers)), (True, 4, 5, 0, 0, 12, 0))
        self.refused(9, kullneyra.mark, STORE_S, [0], settings, [1, 0], buffers)
        self.assertEqual(list(buffers.marks), [1, 1, 1, 1, 0, 0])
        self.assertEqual(astuple(kullneyra.tally_of(buffers.tallies, 0)), (5, 3, 0, 0))
        every = kullneyra.mark_all(STORE_S, [0], settings, buffers)
        self.assertEqual((every.finished, every.live, every.followed, list(buffers.marks)), (True, 4, 5, [1, 1, 1, 1, 0, 0]))
        self.refused(13, kullneyra.mark_all, STORE_S, [], settings, buffers)
        self.assertEqual(kullneyra.saved_words(6, 1), 50)
        self.refused(8, kullneyra.saved_words, 6, 17)
        stopped = kullneyra.begin(STORE_S, [0], settings, bytes(22), buffers, saved)
        self.assertEqual(astuple(stopped), (False, 4, 5, 0, 0, 11, 0, True))
        self.refused(7, kullneyra.begin, STORE_S, [0], settings, b"", buffers, saved[1:])
        stopped = kullneyra.resume(STORE_S, [0], settings, bytes(2), buffers, saved)
        self.assertEqual(astuple(stopped), (True, 4, 5, 0, 0, 12, 0, True))
        self.refused(14, kullneyra.resume, STORE_S, [0], settings, b"", buffers, words(50))
        self.assertEqual((list(saved[:3]), saved[9]), ([2, 4, 0], 12))
        dead = words(6)
        swept = kullneyra.sweep(buffers.marks, [100, 200, 300, 400, 500, 600], dead)
        self.assertEqual((astuple(swept), list(dead)), ((2, 1100), [4, 5, 0, 0, 0, 0]))
        self.refused(7, kullneyra.sweep, buffers.marks[1:], longs(6), dead)

    def test_stopped_and_taken_up(self):
        settings, buffers, saved = Settings(2, 1, 1), Buffers.of(6, 2), words(kullneyra.saved_words(6, 2))
        stopped = kullneyra.begin(STORE_S, [0], settings, [0, 0, 1, 0, 0, 0], buffers, saved)
        self.assertEqual((stopped.finished, stopped.moved), (False, 3))
        while not stopped.finished and stopped.sound:
            stopped = kullneyra.resume(STORE_S, [0], settings, [0, 1, 1, 0], buffers, saved)
        self.assertEqual((stopped.live, stopped.followed), (4, 5))

    def test_cards_and_seeds(self):
        schedule = bytearray(6)
        self.assertEqual(kullneyra.schedule_length(4, 6), 48)
        self.refused(15, kullneyra.schedule_length, 4, 7)
        self.assertIsNone(kullneyra.deal([719], 3, schedule))
        self.refused(15, kullneyra.deal, [720], 3, schedule)
        self.assertEqual(list(schedule), [2, 1, 1, 0, 0, 2])
        seed, none = Seed(1), Seed(second=5)
        self.assertEqual(seed.draw(), 646)
        self.refused(16, none.draw)
        self.assertEqual((seed, none), (Seed(270369, 362437), Seed(0, 5)))
        seed.deal_seed(1, 3, schedule)
        self.refused(16, none.deal_seed, 1, 3, schedule)
        self.assertEqual((seed, none, list(schedule)), (Seed(67634689, 724874), Seed(0, 5), [0, 1, 1, 2, 2, 0]))

    def test_hops(self):
        hops = words(6)
        self.assertEqual(kullneyra.hop_words(6), 12)
        self.refused(4, kullneyra.hop_words, 0)
        kullneyra.hops(STORE_S, [3], hops, words(12))
        self.refused(13, kullneyra.hops, STORE_S, [], hops, words(12))
        self.assertEqual(list(hops), [1, 2, 2, 0, kullneyra.NO_HOPS, kullneyra.NO_HOPS])

    def test_updates(self):
        two = Graph([0, 1, 1], [1])
        self.assertEqual(kullneyra.update_words(6), 6)
        self.refused(4, kullneyra.update_words, 65537)
        renewed = Renewed(Graph(words(3), words(2)), bytearray([1, 2]), words(2))
        kullneyra.add(two, [1], [0], renewed)
        self.refused(5, kullneyra.add, two, [2], [0], renewed)
        self.assertEqual((list(renewed.graph.offsets), list(renewed.graph.targets), list(renewed.marks)), ([0, 1, 2], [1, 0], [1, 2]))
        renewed = Renewed(Graph(words(3), words(0)), bytearray(2), words(2))
        kullneyra.remove(two, [0], [0], renewed)
        self.refused(5, kullneyra.remove, two, [1], [0], renewed)
        self.assertEqual((list(renewed.graph.offsets), list(renewed.marks)), ([0, 0, 0], [1, 0]))

    def test_market(self):
        text = b"%%MatrixMarket matrix coordinate pattern general\n2 2 1\n1 2\n"
        two = Graph([0, 1, 1], [1])
        self.assertEqual(astuple(kullneyra.market_header(text)), (2, 1, 0))
        self.refused(18, kullneyra.market_header, text[1:])
        offsets, targets, sizes = words(3), words(1), array("Q", [9, 9])
        self.assertEqual(astuple(kullneyra.import_(text, offsets, targets, sizes)), (2, 1, 0))
        self.refused(7, kullneyra.import_, text, offsets, words(6), sizes)
        self.refused(5, kullneyra.import_, text.replace(b"1 2\n", b"0 2\n"), offsets, targets, sizes)
        self.assertEqual((list(offsets), list(targets), list(sizes)), ([0, 1, 1], [1], [0, 0]))
        out = bytearray(kullneyra.export_length(two))
        self.refused(4, kullneyra.export_length, Graph([0], []))
        kullneyra.export(two, out)
        self.refused(7, kullneyra.export, two, out[1:])
        self.assertEqual(out, text)

    def test_names(self):
        given = (3, 2, b"0aaaab", [2, 0, 1], b"0aaab", [4, 5], [1, 0])
        work, mentioning, mentioned = words(kullneyra.SCAN_WORK), words(3), words(3)
        self.assertEqual(kullneyra.scan_length(*given, work), 3)
        self.refused(19, kullneyra.scan_length, 3, 0, b"", [], b"", [], [], work)
        self.refused(7, kullneyra.scan, *given, work, mentioning, mentioned[1:])
        self.refused(7, kullneyra.scan, *given, work[1:], mentioning, mentioned)
        kullneyra.scan(*given, work, mentioning, mentioned)
        self.assertEqual((list(mentioning), list(mentioned), any(work)), ([1, 1, 1], [2, 0, 0], False))

    def test_every_call_is_made(self):
        """A call that is new in the module has to be tried here, too."""
        with open(__file__, encoding="utf-8") as own:
            text = own.read()
        for name in kullneyra._calls.__all__:
            if inspect.isfunction(getattr(kullneyra, name)):
                self.assertIn(f"kullneyra.{name}", text)

    def test_refusals_in_words(self):
        self.assertEqual(str(Refusal(7)), "refusal 7: a lent buffer is not as long as it must be, or overlaps another")
        self.assertEqual(str(Refusal(99)), "refusal 99: a number newer than this package")
        self.assertEqual(len(Cause), 19)
        for cause in Cause:
            self.assertTrue(Refusal(cause).text)

    def test_owners(self):
        self.assertEqual([kullneyra.owner_of(mark, False) for mark in (0, 1, 2, 255)], [Owner.NOBODY, 0, 1, Owner.REACHED])
        self.assertEqual(kullneyra.owner_of(1, True), Owner.START)


class Lent(unittest.TestCase):
    def test_overlap(self):
        """A buffer that a call writes and that overlaps another one: refused, and every buffer is as it was."""
        settings = Settings(1, 1, 1)

        def add_in_place(at):
            renewed = Renewed(Graph(at[:2], at[2:4]), bytearray([1]), words(1))
            kullneyra.add(Graph(at[:2], at[2:3]), [0], [0], renewed)

        def remove_over_the_numbers(at):
            kullneyra.remove(Graph([0, 2], [0, 0]), at[:1], [0], Renewed(Graph(words(2), at[:1]), bytearray([1]), words(1)))

        def work_over_the_starts(at):
            kullneyra.mark(Graph([0, 0], []), at[6:7], settings, b"", Buffers(bytearray(1), at[1:7], longs(4)))

        def work_over_the_hops(at):
            kullneyra.hops(Graph([0, 0], []), [0], at[:1], at[:2])

        for call in (add_in_place, remove_over_the_numbers, work_over_the_starts, work_over_the_hops):
            held = array("I", [0, 1, 0, 3, 4, 5, 0, 7])
            with self.subTest(call.__name__), self.assertRaises(Refusal) as raised:
                call(memoryview(held))
            self.assertEqual((raised.exception.number, list(held)), (7, [0, 1, 0, 3, 4, 5, 0, 7]))

    def test_buffers_of_many_kinds(self):
        catalogue = catalogue_s()
        for given in (catalogue, bytearray(catalogue), memoryview(catalogue), array("B", catalogue), list(catalogue), tuple(catalogue)):
            self.assertEqual(kullneyra.header(given).objects, 6)
        hops = (ctypes.c_uint32 * 6)()
        kullneyra.hops(STORE_S, [0], hops, words(12))
        self.assertEqual(list(hops)[:4], [0, 1, 1, 2])

    def test_what_does_not_fit(self):
        for wrong in (bytearray(24), array("i", [0] * 6), array("Q", [0] * 6), array("f", [0] * 6), [0] * 6, bytes(24), memoryview(words(12))[::2]):
            with self.subTest(type(wrong).__name__), self.assertRaises(TypeError):
                kullneyra.hops(STORE_S, [0], wrong, words(12))
        for number in (-1, 1 << 32, 1 << 64):
            with self.assertRaises(OverflowError):
                kullneyra.hop_words(number)
            with self.assertRaises(OverflowError):
                kullneyra.hops(STORE_S, [number], words(6), words(12))
            with self.assertRaises(OverflowError):
                Seed(number).draw()
        for wrong in (1.5, "6", None):
            with self.assertRaises(TypeError):
                kullneyra.hop_words(wrong)
        with self.assertRaises(TypeError):
            kullneyra.header("text")

    def test_without_the_library(self):
        env = {**os.environ, "KULLNEYRA_LIB_DIR": "/nonexistent"}
        done = subprocess.run([sys.executable, "-c", "import kullneyra"], env=env, capture_output=True, text=True)
        self.assertEqual(done.returncode, 1)
        for part in ("ImportError: /nonexistent/libkullneyra.so.", "make shared", "KULLNEYRA_LIB_DIR"):
            self.assertIn(part, done.stderr)


class Drawn(unittest.TestCase):
    def test_random(self):
        rng = random.Random(7)
        for _ in range(1000):
            check(rng)

    def test_side_by_side(self):
        failed = []

        def many(source):
            try:
                rng = random.Random(source)
                for _ in range(100):
                    check(rng)
            except BaseException as fault:  # pylint: disable=broad-except
                failed.append(fault)

        threads = [threading.Thread(target=many, args=(source,)) for source in range(8)]
        for thread in threads:
            thread.start()
        for thread in threads:
            thread.join()
        self.assertEqual(failed, [])


if __name__ == "__main__":
    unittest.main()
