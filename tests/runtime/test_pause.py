"""The program that stops and goes on: parts of turns, kills at random moments, and files that are damaged."""

import fcntl
import hashlib
import os
import random
import resource
import signal
import struct
import subprocess
import sys
import tempfile
import time
import unittest
from pathlib import Path

TOP = Path(__file__).resolve().parents[2]
sys.path.insert(0, str(TOP / "tools"))
import case  # noqa: E402

PROGRAMS = {"pause": TOP / "target/bin/pause", "collect": TOP / "target/bin/collect"}
SAVED, BESIDE = "collection.saved", "collection.new"
SEED = 6
KILLS = 1000  # of a single call, and of two at once


def catalogue(rng, objects, references):
    """A store whose references are drawn; index 0."""
    records = [struct.pack("<HHIII", 16, 1, objects, references, 0)]
    records += [struct.pack("<HHQ", 12, 2, rng.randrange(1 << 40)) for _ in range(objects)]
    records += [struct.pack("<HHII", 12, 3, rng.randrange(objects), rng.randrange(objects)) for _ in range(references)]
    return b"".join(records)


def order(rng, workers, batch, cutoff, turns):
    """An order whose turns are drawn."""
    entries = bytes(rng.randrange(workers) for _ in range(2 * turns))
    return struct.pack("<BHH", workers, batch, cutoff) + entries


class Pause(unittest.TestCase):
    def setUp(self):
        held = tempfile.TemporaryDirectory()
        self.addCleanup(held.cleanup)
        self.folder = Path(held.name)
        self.rng = random.Random(SEED)
        self.draw(objects=60, references=150, turns=3000)

    def draw(self, objects, references, turns):
        (self.folder / SAVED).unlink(missing_ok=True)
        (self.folder / "store.cat").write_bytes(catalogue(self.rng, objects, references))
        (self.folder / "order.run").write_bytes(order(self.rng, self.rng.randint(1, 4), 3, 2, turns))

    def run_program(self, name, *arguments, told=""):
        """What the program prints; on the other side it says just this sentence."""
        done = subprocess.run([PROGRAMS[name], *arguments], cwd=self.folder, capture_output=True, check=True)
        self.assertEqual(done.stderr.decode(), f"pause: {told}\n" if told else "")
        return done.stdout.decode()

    def saved(self):
        return (self.folder / SAVED).read_bytes()

    def made(self):
        """How many turns the kept collection has made; that it is whole."""
        path = self.folder / SAVED
        if not path.exists():
            return 0
        data = path.read_bytes()
        self.assertEqual(hashlib.sha256(data[:-32]).digest(), data[-32:])
        return struct.unpack_from("<Q", data, 20)[0]

    def whole(self):
        """What one run prints, and what it keeps."""
        printed = self.run_program("pause")
        kept = self.saved()
        (self.folder / SAVED).unlink()
        self.assertEqual(printed, self.run_program("collect"))
        return printed, kept

    def begin_to_end(self, printed, kept):
        """The rest of the turns brings what one run brings; then everything begins anew."""
        self.assertEqual((self.run_program("pause"), self.saved()), (printed, kept))
        (self.folder / SAVED).unlink()

    def test_words(self):
        version = (TOP / "VERSION").read_text().strip()
        for words, status, out, said in (
            (["--version"], 0, f"pause version {version}\n", ""),
            (["--help"], 0, "pause [TURNS]\n", ""),
            (["5", "6"], 1, "", "pause [TURNS]\n"),
            (["-1"], 1, "", "pause [TURNS]\n"),
            (["five"], 1, "", "pause [TURNS]\n"),
            ([b"\xff"], 1, "", "pause [TURNS]\n"),
        ):
            done = subprocess.run([PROGRAMS["pause"], *words], cwd=self.folder, capture_output=True, text=True)
            self.assertEqual((done.returncode, done.stdout, done.stderr), (status, out, said))
        self.assertFalse((self.folder / SAVED).exists())

    def test_parts_end_as_one_run(self):
        for _ in range(6):
            self.draw(self.rng.randint(1, 90), self.rng.randint(0, 200), turns=400)
            printed, kept = self.whole()
            while self.made() < 400:
                self.run_program("pause", str(self.rng.choice([0, 1, 2, 60, 150])))
            self.assertEqual((self.run_program("pause", "0"), self.saved()), (printed, kept))

    def start(self, turns):
        return subprocess.Popen(
            [PROGRAMS["pause"], str(turns)], cwd=self.folder, stdout=subprocess.DEVNULL, stderr=subprocess.DEVNULL
        )

    def test_killed_at_random_moments(self):
        printed, kept = self.whole()
        killed = 0
        while killed < KILLS // 2:
            at = self.made()
            if at == 3000:
                self.begin_to_end(printed, kept)
                continue
            going = self.start(40)
            time.sleep(self.rng.uniform(0, 0.004))
            going.kill()
            killed += going.wait() != 0
            self.assertIn(self.made(), (at, at + 40))
        self.begin_to_end(printed, kept)
        self.assertFalse((self.folder / BESIDE).exists())

    def test_two_at_once_and_killed(self):
        """One of the two is killed, or both; what the other one makes is kept, and each turn is made once."""
        printed, kept = self.whole()
        killed = 0
        while killed < KILLS // 2:
            at = self.made()
            if at >= 2900:
                self.begin_to_end(printed, kept)
                continue
            going = [self.start(40), self.start(41)]
            time.sleep(self.rng.uniform(0, 0.006))
            for one in going[: self.rng.choice([1, 2])]:
                one.kill()
            ended = [one.wait() for one in going]
            killed += sum(status != 0 for status in ended)
            least = sum(turns for turns, status in zip((40, 41), ended) if status == 0)
            self.assertIn(self.made() - at, [made for made in (0, 40, 41, 81) if made >= least])
        self.begin_to_end(printed, kept)

    def test_waits_for_another(self):
        """While somebody has the folder, it waits, and says so."""
        folder = os.open(self.folder, os.O_RDONLY)
        self.addCleanup(os.close, folder)
        fcntl.flock(folder, fcntl.LOCK_EX)
        going = subprocess.Popen([PROGRAMS["pause"], "40"], cwd=self.folder, stdout=subprocess.DEVNULL, stderr=subprocess.PIPE)
        self.assertEqual(going.stderr.readline(), b"pause: another one is at work in this folder; waiting for it\n")
        self.assertIsNone(going.poll())
        fcntl.flock(folder, fcntl.LOCK_UN)
        self.assertEqual((going.wait(), going.stderr.read(), self.made()), (0, b"", 40))
        going.stderr.close()

    def refused(self, why):
        self.assertEqual(self.run_program("pause", told=f"{SAVED} is not taken up: {why}"), "refusal 14\n")

    def test_damaged_files(self):
        self.run_program("pause", "500")
        kept = self.saved()
        old_form = kept[20:24] + kept[92:-32]
        newer = kept[:16] + struct.pack("<I", 2) + kept[20:]
        more = kept[:20] + struct.pack("<Q", 501) + kept[28:]
        beyond = kept[:20] + struct.pack("<Q", 1 << 63) + kept[28:-32]
        foreign = "it is no file of this program, or one of an earlier form"
        damage = "it is damaged or cut off: its check does not fit its contents"
        for damaged, why in (
            (b"", foreign),
            (bytes(len(kept)), foreign),
            (b"\xff" * len(kept), foreign),
            (old_form, foreign),
            (newer, "it has version 2, and this program reads version 1"),
            (kept[:16], damage),
            (kept[:100], damage),
            (kept[:-1], damage),
            (kept + b"\0", damage),
            (more, damage),
            (beyond + hashlib.sha256(beyond).digest(), "it says more turns than the order has"),
        ):
            (self.folder / SAVED).write_bytes(damaged)
            self.refused(why)
            self.assertEqual(self.saved(), damaged)

    def test_other_store_or_order(self):
        """Another D or K, a turn more, or a reference that leads elsewhere is told."""
        self.run_program("pause", "500")
        kept = self.saved()
        for name, at in (("order.run", 1), ("order.run", 3), ("order.run", 700), ("store.cat", -4)):
            path = self.folder / name
            own = path.read_bytes()
            other = bytearray(own)
            other[at] ^= 1
            for changed in (bytes(other), own + own[-2:] if name == "order.run" else bytes(other)):
                path.write_bytes(changed)
                self.refused(f"it belongs to another {name}")
            path.write_bytes(own)
            self.assertEqual(self.saved(), kept)
        self.assertNotEqual(self.run_program("pause"), "refusal 14\n")

    def test_dead_end(self):
        """Words of somebody else with moved at its bound are taken up; what is kept then is told to be a dead end, and is refused."""
        self.run_program("pause", "5")
        kept = bytearray(self.saved()[:-32])
        workers = (self.folder / "order.run").read_bytes()[0]
        # The head, the form, and four counts of two words come before moved.
        struct.pack_into("<Q", kept, 92 + 4 + 4 * 8, 7 * 150 + workers)
        (self.folder / SAVED).write_bytes(kept + hashlib.sha256(kept).digest())
        self.assertNotIn("dead end", self.run_program("pause", "0"))
        self.assertRegex(self.run_program("pause", "200"), r"\ncarrying \d+\ndead end\nbox 0 ")
        self.refused("its words hold no sound collection")

    def test_as_text(self):
        """A stopped collection told as text is the same file, and can be written by hand."""
        self.run_program("pause", "500")
        kept = self.saved()
        told = case.parse(case.show(case.load(self.folder)))
        case.save(told, self.folder)
        self.assertEqual(self.saved(), kept)
        told.saved.counts["live"] += 1
        case.save(told, self.folder)
        self.refused("its words hold no sound collection")

    def test_file_that_cannot_be_read(self):
        (self.folder / SAVED).mkdir()
        self.assertEqual(self.run_program("pause", told=f"{SAVED}: it is no file"), "refusal 12\n")
        (self.folder / SAVED).rmdir()
        os.mkfifo(self.folder / SAVED)
        self.assertEqual(self.run_program("pause", told=f"{SAVED}: it is no file"), "refusal 12\n")
        (self.folder / SAVED).unlink()
        (self.folder / SAVED).symlink_to("nowhere")
        told = f"{SAVED}: No such file or directory (os error 2)"
        self.assertEqual(self.run_program("pause", told=told), "refusal 12\n")

    def test_half_written_file_beside(self):
        printed, kept = self.whole()
        self.run_program("pause", "1000")
        (self.folder / BESIDE).write_bytes(self.saved()[:777])
        self.begin_to_end(printed, kept)

    def test_link_beside_is_not_followed(self):
        own = self.folder / "own"
        own.write_bytes(b"of somebody else")
        (self.folder / BESIDE).symlink_to("own")
        self.run_program("pause", "500")
        self.assertEqual((own.read_bytes(), self.made()), (b"of somebody else", 500))
        self.assertFalse((self.folder / SAVED).is_symlink())

    def test_what_cannot_be_written_whole(self):
        """The file of before stays, nothing beside it, and it is told."""
        self.run_program("pause", "500")
        kept = self.saved()

        def little_room():
            signal.signal(signal.SIGXFSZ, signal.SIG_IGN)
            resource.setrlimit(resource.RLIMIT_FSIZE, (100, 100))

        done = subprocess.run([PROGRAMS["pause"], "40"], cwd=self.folder, capture_output=True, preexec_fn=little_room)
        self.assertEqual((done.returncode, done.stdout), (1, b""))
        self.assertEqual(done.stderr, b"pause: the collection was not kept: File too large (os error 27)\n")
        self.assertEqual((self.saved(), (self.folder / BESIDE).exists()), (kept, False))
        (self.folder / BESIDE).mkdir()
        done = subprocess.run([PROGRAMS["pause"], "40"], cwd=self.folder, capture_output=True)
        self.assertEqual((done.returncode, self.saved()), (1, kept))

    def test_refused_call_keeps_the_file(self):
        path = self.folder / "order.run"
        path.write_bytes(path.read_bytes()[: 5 + 2 * 900] + b"\4\0")
        self.run_program("pause", "500")
        kept = self.saved()
        self.assertEqual(self.run_program("pause"), "refusal 9\n")
        self.assertEqual(self.saved(), kept)
        self.assertFalse((self.folder / BESIDE).exists())


if __name__ == "__main__":
    unittest.main()
