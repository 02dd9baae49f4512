"""The program on many pairs of files: what it prints, which number it refuses with, and which fault it tells first."""

import struct
from dataclasses import replace

import test_program
from test_program import TOP, case

SAMPLE = case.load_text(TOP / "samples" / "a.txt")
LARGEST = 1 << 40


def store(sizes, references=(), index=0, leases=()):
    made = case.Case(index=index, sizes=list(sizes), references=list(references), leases=list(leases))
    return case.store_bytes(made)


def order(workers, batch, cutoff, turns=()):
    return case.order_bytes(case.Case(settings=dict(zip(case.SETTINGS, (workers, batch, cutoff))), turns=list(turns)))


def asking_0(*workers):
    """A turn of each of these workers, which all name worker 0."""
    return [(worker, 0) for worker in workers]


S = case.store_bytes(SAMPLE)
ONE = store([5])
LOOP, TWICE = store([5], [(0, 0)]), store([5, 6], [(0, 1)] * 2)
DEAD = [(4, 500), (5, 600)]
NO_TURNS = order(1, 1, 1)
A = asking_0(0, 1, 0, 0, 0, 1, 1, 0, 1, 0, 0, 0, 1, 0, 1, 1, 0, 1, 0, 1)
LONE = order(1, 2, 1, asking_0(*[0] * 12))
SHARED = asking_0(0, 1, 0, 0, 0, 0, 0, 0, 1, 0, 0)
LONG_STORE, LONG_ORDER = bytes(62065), bytes(65537)


def written(at, form, *values, length=160):
    """Store S with numbers written at a place, cut or filled up with zeros to a length."""
    data = bytearray(S + bytes(16))
    struct.pack_into("<" + form, data, at, *values)
    return bytes(data[:length])


def first(length):
    return written(0, "", length=length)


def leased(*objects):
    """Store S with a lease for each of these objects."""
    return S + b"".join(case.record(case.LEASE, struct.pack("<I", object)) for object in objects)


def signed(kind, naming, named):
    """Store S with its last reference replaced by a record of this kind."""
    return written(148, "HHII", 12, kind, naming, named)


def header(n, m, index):
    return case.record(case.HEADER, struct.pack("<III", n, m, index))


def told(state, *counts, boxes, dead=()):
    """What the program prints for a collection; `boxes` has what each worker followed, won, lost and handed, and `dead`
    are pairs of number and size."""
    names = ("live", "followed", "handed", "refused", "moved", "carrying")
    lines = [state, *(f"{name} {count}" for name, count in zip(names, counts))]
    for number, (followed, won, lost, handed) in enumerate(boxes):
        lines.append(f"box {number} followed {followed} won {won} lost {lost} handed {handed}")
    if state == "finished":
        lines += [f"dead {number} {size}" for number, size in dead]
        lines.append(f"freed {sum(size for _, size in dead)}")
    return "\n".join(lines) + "\n"


NOTHING = (0, 0, 0, 0)
UNTOUCHED = told("unfinished", 1, 0, 0, 0, 0, 1, boxes=[NOTHING])
ALONE = [(5, 3, 0, 0)]

DRAWINGS = [
    ("A", S, order(2, 1, 1, A), told("finished", 4, 5, 1, 0, 18, 0, boxes=[(3, 2, 1, 1), (2, 1, 0, 0)], dead=DEAD)),
    ("B", S, order(2, 1, 1, A[:5]), told("unfinished", 2, 1, 1, 0, 5, 2, boxes=[(1, 1, 0, 1), NOTHING])),
    ("C", S, order(2, 1, 2, A[:5]), told("unfinished", 2, 1, 0, 1, 5, 1, boxes=[(1, 1, 0, 0), NOTHING])),
    ("D", S, LONE, told("finished", 4, 5, 0, 0, 12, 0, boxes=ALONE, dead=DEAD)),
    ("E", S, LONE[:-2], told("unfinished", 4, 5, 0, 0, 11, 0, boxes=ALONE)),
    ("F", ONE, NO_TURNS, told("unfinished", 1, 0, 0, 0, 0, 0, boxes=[NOTHING])),
    ("G", ONE, order(1, 1, 1, asking_0(0)), told("finished", 1, 0, 0, 0, 1, 0, boxes=[NOTHING])),
    ("H", ONE, order(2, 1, 1, asking_0(0, 0)), told("unfinished", 1, 0, 0, 0, 1, 0, boxes=[NOTHING] * 2)),
    ("I", LOOP, order(1, 1, 1, asking_0(0, 0, 0)), told("finished", 1, 1, 0, 0, 3, 0, boxes=[(1, 0, 0, 0)])),
    ("J", TWICE, order(1, 2, 1, asking_0(*[0] * 5)), told("finished", 2, 2, 0, 0, 5, 0, boxes=[(2, 1, 0, 0)])),
    ("K", b"", NO_TURNS, 1),
    ("L", S, order(2, 1, 1, asking_0(2)), 9),
]

SETTINGS = [
    ("W 0", S, order(0, 1, 1), 8),
    ("W 1", S, order(1, 1, 1), UNTOUCHED),
    ("W 4", S, order(4, 1, 1, asking_0(3)), told("unfinished", 1, 0, 0, 0, 1, 1, boxes=[NOTHING] * 4)),
    ("W 5", S, order(5, 1, 1), 11),
    ("W 16", S, order(16, 1, 1), 11),
    ("W 17", S, order(17, 1, 1), 8),
    ("D 0", S, order(1, 0, 1), 8),
    ("K 0", S, order(1, 1, 0), 8),
    ("D 65535", S, order(2, 65535, 1, SHARED), told("unfinished", 4, 3, 1, 0, 11, 2, boxes=[(3, 3, 0, 1), NOTHING])),
    ("K 65535", S, order(2, 1, 65535, SHARED), told("unfinished", 4, 3, 0, 1, 11, 1, boxes=[(3, 3, 0, 0), NOTHING])),
    ("half an entry", S, order(1, 1, 1, asking_0(0)) + b"\0", 9),
    ("an entry for worker 1 of 1", S, order(1, 1, 1, asking_0(1)), 9),
    ("an entry for worker 4 of 4, the last one", S, order(4, 1, 1, asking_0(3, 4)), 9),
    ("workers 255 and 2 asked", S, order(2, 1, 1, [(1, 255), (1, 2)]), told("unfinished", 1, 0, 0, 0, 0, 1, boxes=[NOTHING] * 2)),
]

FILES = [
    ("order.run of 4 bytes", S, NO_TURNS[:4], 12),
    ("order.run of 5 bytes", S, NO_TURNS, UNTOUCHED),
    ("order.run empty", S, b"", 12),
    ("store.cat unreadable", None, NO_TURNS, 12),
    ("order.run unreadable", S, None, 12),
    ("store.cat too long", LONG_STORE, NO_TURNS, 11),
    ("order.run too long", S, LONG_ORDER, 11),
]

DAMAGED = [
    ("store.cat of 3 bytes", first(3), 1),
    ("header cut", first(15), 1),
    ("header alone", first(16), 1),
    ("last reference missing", first(148), 1),
    ("last reference cut", first(159), 1),
    ("1 byte more", first(161), 1),
    ("3 bytes more", first(163), 1),
    ("length past the end", written(148, "H", 13), 1),
    ("header of kind 0", written(2, "H", 0), 2),
    ("header of kind 4", written(2, "H", 4), 2),
    ("header of length 15", written(0, "H", 15), 2),
    ("object of length 11", written(16, "H", 11), 2),
    ("reference of kind 4", written(90, "H", 4), 2),
    ("object first", written(0, "HH", 12, 2), 3),
    ("reference where an object is due", written(18, "H", 3), 3),
    ("object where a reference is due", written(90, "H", 2), 3),
    ("a reference too many", written(160, "HH", 12, 3, length=172), 3),
    ("a second header", written(160, "HH", 16, 1, length=176), 3),
    ("a lease where a reference is due", written(148, "HHI", 8, 4, 5, length=156), 3),
    ("a lease cut", leased(5)[:-1], 1),
    ("a lease of length 12", written(160, "HH", 12, 4, length=172), 2),
    ("kind 6", written(160, "HH", 12, 6, length=172), 2),
    ("kind 6 where a reference is due", signed(6, 5, 4), 2),
    ("a subject of length 8", written(160, "HH", 8, 5, length=168), 2),
    ("a subject too many", written(160, "HH", 12, 5, length=172), 3),
    ("a subject behind a lease", leased(5) + signed(5, 5, 4)[-12:], 3),
    ("a subject where an object is due", written(18, "H", 5), 3),
    ("subject 5", signed(5, 4, 5), UNTOUCHED),
    ("subject 6", signed(5, 4, 6), 5),
    ("a subject of object 6", signed(5, 6, 4), 5),
    ("a lease of object 6", leased(6), 5),
    ("a byte behind a lease", leased(5) + b"\0", 1),
    ("a reference behind a lease", leased(5) + S[-12:], 3),
    ("256 leases of the index", leased(*[0] * 256), UNTOUCHED),
    ("257 leases", leased(*[0] * 257), 13),
    ("257 leases, the last of object 6", leased(*[0] * 256, 6), 13),
    ("256 leases, the last of object 6", leased(*[0] * 255, 6), 5),
    ("index 5", written(12, "I", 5), UNTOUCHED),
    ("index 6", written(12, "I", 6), 5),
    ("from 6", written(92, "I", 6), 5),
    ("to 6", written(156, "I", 6), 5),
    ("object 5 one larger", written(80, "Q", LARGEST + 1), 6),
    ("n 0", written(4, "I", 0), 4),
    ("n 65536", written(4, "I", 65536), 11),
    ("n 65537", written(4, "I", 65537), 4),
    ("m 1048576", written(8, "I", 1048576), 11),
    ("m 1048577", written(8, "I", 1048577), 4),
    # The rest does not fit the header, so that 3 and 1 say that n and m were taken.
    ("n 1000 in store S", written(4, "I", 1000), 3),
    ("n 1001 in store S", written(4, "I", 1001), 11),
    ("m 4000 in store S", written(8, "I", 4000), 1),
    ("m 4001 in store S", written(8, "I", 4001), 11),
]

SEVERAL = [
    ("store.cat unreadable, order.run too long", None, LONG_ORDER, 12),
    ("store.cat too long, order.run unreadable", LONG_STORE, None, 12),
    ("store.cat too long, order.run of 4 bytes", LONG_STORE, bytes(4), 12),
    ("n 1001, order.run of 4 bytes", header(1001, 0, 0), bytes(4), 12),
    ("from 6, order.run of 4 bytes", written(92, "I", 6), bytes(4), 12),
    ("store.cat unreadable, D 0", None, order(1, 0, 1), 12),
    ("store.cat unreadable, W 5", None, order(5, 1, 1), 12),
    ("store.cat unreadable, half an entry", None, NO_TURNS + b"\0", 12),
    ("store.cat too long and damaged, W 0", LONG_STORE, order(0, 0, 0), 11),
    ("order.run too long, store.cat empty", b"", LONG_ORDER, 11),
    ("order.run too long, from 6", written(92, "I", 6), LONG_ORDER, 11),
    ("store.cat too long, half an entry", LONG_STORE, NO_TURNS + b"\0", 11),
    ("n 0, m 4001", header(0, 4001, 0), NO_TURNS, 4),
    ("n 1001, index 1001", header(1001, 0, 1001), NO_TURNS, 5),
    ("n 1001, objects missing", header(1001, 0, 0), NO_TURNS, 11),
    ("m 4001, references missing", header(1, 4001, 0), NO_TURNS, 11),
    ("index 6, size too large", header(6, 6, 6) + written(80, "Q", LARGEST + 1)[16:], NO_TURNS, 5),
    ("index 6, W 5", written(12, "I", 6), order(5, 1, 1), 5),
    ("index 6, half an entry", written(12, "I", 6), NO_TURNS + b"\0", 5),
    ("n 1000, m 4000, W 0", header(1000, 4000, 0), order(0, 1, 1), 1),
    ("n 1001, W 0", header(1001, 0, 0), order(0, 1, 1), 11),
    ("n 1001, half an entry", header(1001, 0, 0), NO_TURNS + b"\0", 11),
    ("store.cat empty, D 0", b"", order(1, 0, 1), 1),
    ("store.cat empty, order.run of 4 bytes", b"", bytes(4), 12),
    ("size too large, W 0", written(80, "Q", LARGEST + 1), order(0, 1, 1), 6),
    ("stray bytes, W 5", first(163), order(5, 1, 1), 1),
    ("to 6, half an entry", written(156, "I", 6), NO_TURNS + b"\0", 5),
    ("W 5, D 0", S, order(5, 0, 1), 8),
    ("W 17, half an entry", S, order(17, 1, 1) + b"\0", 8),
    ("W 5, half an entry", S, order(5, 1, 1) + b"\0", 11),
    ("W 5, an entry for worker 5", S, order(5, 1, 1, asking_0(5)), 11),
    ("K 0, an entry for worker 1 of 1", S, order(1, 1, 0, asking_0(1)), 8),
]


def target(reference):
    """No reference leads to object 99, 199 and so on."""
    lap, source = divmod(reference, 1000)
    place = (7 * source + 211 * lap + 1) % 990
    return place + place // 99


MOST = [LARGEST] * 1001
SIZES = [1000 + 7 * v for v in range(1000)]
# The leases name the index, which adds nothing.
FULL = store(SIZES, [(e % 1000, target(e)) for e in range(4000)], leases=[0] * 256)
ROUNDS = order(4, 4, 2, [(i % 4, i // 4 % 4) for i in range(32766)])
WHOLE = [(985, 254, 3, 2), (986, 254, 0, 2), (1003, 226, 0, 2), (986, 255, 0, 1)]
PART = [(259, 173, 3, 1), (256, 170, 0, 1), (261, 162, 0, 1), (252, 171, 0, 0)]
TO_ITSELF = order(1, 65535, 1, asking_0(*[0] * 4002))

LARGE = [
    (
        "1000 objects",
        store(MOST[:1000], index=999),
        order(1, 1, 1, asking_0(0)),
        told("finished", 1, 0, 0, 0, 1, 0, boxes=[NOTHING], dead=[(v, LARGEST) for v in range(999)]),
    ),
    ("1001 objects", store(MOST, index=999), order(1, 1, 1, asking_0(0)), 11),
    (
        "4000 references",
        store([5], [(0, 0)] * 4000),
        TO_ITSELF,
        told("finished", 1, 4000, 0, 0, 4002, 0, boxes=[(4000, 0, 0, 0)]),
    ),
    ("4001 references", store([5], [(0, 0)] * 4001), TO_ITSELF, 11),
    (
        "62064 and 65535 bytes",
        FULL,
        ROUNDS[:65535],
        told("finished", 990, 3960, 7, 2, 5968, 0, boxes=WHOLE, dead=[(v, SIZES[v]) for v in range(99, 1000, 100)]),
    ),
    ("62064 and 4005 bytes", FULL, ROUNDS[:4005], told("unfinished", 677, 1028, 3, 0, 1973, 4, boxes=PART)),
    ("62065 and 65535 bytes", FULL + b"\0", ROUNDS[:65535], 11),
    ("62064 and 65536 bytes", FULL, ROUNDS[:65536], 9),
    ("62064 and 65537 bytes", FULL, ROUNDS, 11),
    ("62065 and 4 bytes", FULL + b"\0", ROUNDS[:4], 12),
    ("62064 bytes of a longer store.cat", FULL + bytes(60000), ROUNDS[:65535], 11),
    # Two objects that nothing refers to, one of them with a lease: its own references are followed too.
    (
        "a lease holds what hangs on it",
        store([1, 2, 4, 8], [(0, 1), (2, 1), (2, 2)], leases=[2]),
        order(1, 4, 4, asking_0(*[0] * 22)),
        told("finished", 3, 3, 0, 0, 6, 0, boxes=[(3, 1, 0, 0)], dead=[(3, 8)]),
    ),
    ("65536 bytes of a longer order.run", FULL, ROUNDS + bytes(60000), 11),
]


DOWNLOAD = case.load_text(TOP / "samples" / "download.txt")
KEPT = [(6, 700)]
LOST = [(3, 400), (4, 5000), (5, 6000), (6, 700)]
IN_PROGRESS = [
    (
        "a lease keeps a download",
        DOWNLOAD,
        told("finished", 6, 4, 1, 1, 18, 0, boxes=[(3, 3, 0, 1), (1, 1, 0, 0)], dead=KEPT),
    ),
    (
        "without it the download is dead",
        replace(DOWNLOAD, leases=[]),
        told("finished", 3, 2, 0, 2, 12, 0, boxes=[(2, 2, 0, 0), NOTHING], dead=LOST),
    ),
]


SIGNED = case.load_text(TOP / "samples" / "signed.txt")
DROPPED = replace(SIGNED, references=SIGNED.references[1:], subjects={at - 1 for at in SIGNED.subjects})
OLD_IMAGE = [(6, 300), (7, 400)]
ATTACHED = [
    (
        "a signature and a bill of material live with their image",
        SIGNED,
        told("finished", 6, 5, 1, 3, 25, 0, boxes=[(4, 4, 0, 1), (1, 1, 0, 0)], dead=OLD_IMAGE),
    ),
    (
        "and are swept with it",
        DROPPED,
        told("finished", 1, 0, 0, 0, 2, 0, boxes=[NOTHING, NOTHING], dead=[(1, 300), (2, 5000), (3, 400), (4, 70), (5, 800), *OLD_IMAGE]),
    ),
]


CARDS = case.load_text(TOP / "samples" / "cards.txt")
DEALT = [
    (
        "turns dealt from cards",
        CARDS,
        told("finished", 4, 5, 1, 2, 22, 0, boxes=[(3, 2, 0, 1), NOTHING, (2, 1, 0, 0)], dead=[(4, 500), (5, 600)]),
    ),
]


class Cases(test_program.Folder):
    def put(self, name, data):
        (self.folder / name).unlink(missing_ok=True)
        if data is not None:
            self.write(name, data)

    def check(self, cases):
        for name, catalogue, run, expected in cases:
            with self.subTest(name):
                self.put("store.cat", catalogue)
                self.put("order.run", run)
                text = f"refusal {expected}\n" if isinstance(expected, int) else expected
                self.assertEqual(self.run_program(), text)

    def test_lengths(self):
        self.assertEqual((len(S), len(FULL), len(ROUNDS)), (160, 62064, 65537))

    def test_drawings(self):
        self.check(DRAWINGS)

    def test_settings(self):
        self.check(SETTINGS)

    def test_files(self):
        self.check(FILES)

    def test_damaged(self):
        self.check([(name, catalogue, NO_TURNS, expected) for name, catalogue, expected in DAMAGED])

    def test_largest_size(self):
        dead = [(4, 500), (5, LARGEST)]
        expected = told("finished", 4, 5, 0, 0, 12, 0, boxes=ALONE, dead=dead)
        self.check([("object 5 of the largest size", written(80, "Q", LARGEST), LONE, expected)])

    def test_first_of_several(self):
        self.check(SEVERAL)

    def test_download_in_progress(self):
        self.check([(name, case.store_bytes(one), case.order_bytes(one), text) for name, one, text in IN_PROGRESS])

    def test_signed(self):
        self.check([(name, case.store_bytes(one), case.order_bytes(one), text) for name, one, text in ATTACHED])

    def test_dealt(self):
        self.check([(name, case.store_bytes(one), case.order_bytes(one), text) for name, one, text in DEALT])

    def test_large(self):
        self.check(LARGE)
