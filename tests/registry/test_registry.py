"""kullneyra-oci on the folder of a real registry: what it lists and deletes, and that every tag is copied out byte for byte."""

import json
import random
import shutil
import signal
import subprocess
import tempfile
import threading
import time
import unittest
from pathlib import Path

from server import COMMAND, TREE, Server, Source, oci, run, sign

# Seconds of grace beside pushes: longer than one takes on a machine that has much else to do.
GRACE = 4
# Nothing is too young, and nothing is kept.
NOW = ("--grace", "0", "--retention", "0")


class Registry(unittest.TestCase):
    """An image `one` and `two` that share a layer, an index `both` for two platforms, and signatures of `one` and `both`."""

    def setUp(self):
        self.folder = Path(tempfile.mkdtemp())
        self.server = Server(self.folder / "server").start()
        self.source = Source(self.folder / "source")
        self.tags = []  # of the registry, with the tag of the source
        one, _, parts = self.source.image("one")
        self.source.image("two", shared=parts[:1])
        both, _ = self.source.index("both", self.source.image(architecture="amd64"), self.source.image(architecture="arm64"))
        for name, tag in (("plant/a/app", "one"), ("plant/a/app", "two"), ("plant/b", "one"), ("plant/b", "both")):
            self.server.push(self.source.folder, name, tag)
            self.tags.append((name, tag))
        self.signatures = sign(self.server, "plant/a/app", one) | sign(self.server, "plant/b", both)

    def tearDown(self):
        self.server.stop()
        shutil.rmtree(self.folder)

    def whole(self):
        """Every tag is copied out, all platforms, byte for byte."""
        for name, tag in self.tags:
            got = self.server.pull(name, tag, self.folder / "out")
            for digest, data in self.source.files[tag].items():
                self.assertEqual(got.get(digest), data, (name, tag, digest))
        self.assertLessEqual(self.signatures, self.server.blobs())

    def plan(self, *words):
        return json.loads(oci("plan", "--json", "--grace", "0", *words, self.server.store).stdout)

    def prune(self, *words, status=0):
        return json.loads(oci("prune", "--json", *NOW, *words, self.server.store, status=status).stdout)

    def pruned(self, *words):
        """Prunes, and says which blobs went; what is listed is what goes, and nothing else changes."""
        before, links, told = self.server.blobs(), self.server.links(), self.plan(*words)
        answer = self.prune(*words)
        gone = before - self.server.blobs()
        self.assertEqual(gone, {one["digest"][7:] for one in told["dead"]})
        self.assertEqual(links - self.server.links(), {link for link in links if Path(link).parent.name in gone})
        self.assertEqual({Path(folder).name for folder in self.server.folders()} & gone, set())
        self.assertEqual(len(answer["deleted"]), len(gone))
        self.assertEqual((self.plan(*words)["dead"], list(self.server.store.glob(".k*"))), ([], []))
        return gone

    def test_all_tags(self):
        self.assertEqual(self.pruned(), set())
        self.assertEqual(self.pruned("--untagged"), set())  # platforms are held by their index, signatures by their subjects
        self.whole()
        told = self.plan()
        self.assertEqual(told["untagged"], {"entries": 4, "bytes": 0, "removed": 0})

    def test_deleted_tag(self):
        self.server.delete("plant/a/app", "two")
        self.tags.remove(("plant/a/app", "two"))
        self.assertEqual(len(self.pruned()), 4)  # manifest, configuration, and two layers
        self.whole()
        self.server.restart()
        self.whole()
        # The other repository still has `one`, so nothing of it goes but with both.
        self.server.delete("plant/a/app", "one")
        self.tags.remove(("plant/a/app", "one"))
        self.assertEqual(self.pruned(), set())
        self.whole()
        self.server.push(self.source.folder, "plant/a/app", "two")  # what was deleted can be pushed again
        self.tags.append(("plant/a/app", "two"))
        self.whole()

    def test_moved_tag(self):
        """A tag that moves leaves a revision: what it holds is told, and freed with --untagged."""
        self.source.image("two")
        self.server.push(self.source.folder, "plant/a/app", "two")
        self.assertEqual(self.pruned(), set())
        told = self.plan()
        self.assertEqual((told["untagged"]["entries"], told["untagged"]["bytes"]), (5, self.plan("--untagged")["freed"]))
        self.assertIn("5 revisions have no tag", oci("plan", self.server.store).stderr)
        self.assertEqual(len(self.pruned("--untagged")), 4)
        self.whole()
        self.server.restart()
        self.whole()

    def test_signature_goes_with_its_subject(self):
        self.server.delete("plant/b", "both")
        self.tags.remove(("plant/b", "both"))
        self.assertEqual(self.pruned(), set())  # the signature is a revision, and names the index
        gone = self.pruned("--untagged")
        self.assertEqual(len(gone), 14)  # the index, two platforms of five blobs each, and the signature's three
        self.signatures -= gone
        self.assertEqual(len(self.signatures), 3)
        self.whole()

    def test_put_back(self):
        """A push that looked before the prune and wrote its tag after it: what it names comes back, by restore and by the next prune."""
        tags = self.server.store / TREE / "repositories" / "plant" / "a" / "app" / "_manifests" / "tags"
        for again in (("restore",), ("prune", "--grace", "0")):
            shutil.copytree(tags / "two", self.folder / "two")
            before = self.server.blobs()
            self.server.delete("plant/a/app", "two")
            self.assertEqual(len(json.loads(oci("prune", "--json", "--grace", "0", self.server.store).stdout)["moved"]), 4)
            shutil.move(self.folder / "two", tags / "two")
            self.assertEqual(len(json.loads(oci(*again, "--json", self.server.store).stdout)["putBack"]), 4)
            self.assertEqual(self.server.blobs(), before)
            # The link of the manifest went when it was deleted; a push writes it before the tag.
            digest = (tags / "two" / "current" / "link").read_text()
            link = tags.parent / "revisions" / "sha256" / digest[7:] / "link"
            link.parent.mkdir(exist_ok=True)
            link.write_text(digest)
            self.whole()

    def test_kept_and_why(self):
        digest = json.loads(run("skopeo", "inspect", "--tls-verify=false", self.server.url("plant/a/app", "two")).stdout)["Digest"]
        self.source.image("two")
        self.server.push(self.source.folder, "plant/a/app", "two")
        self.assertEqual(len(self.plan("--untagged")["dead"]), 4)
        self.assertEqual(self.plan("--untagged", "--keep", digest)["dead"], [])
        oci("plan", "--keep", "plant/a/app:none", self.server.store, status=1)
        oci("plan", "--keep", "plant/a/app:two", self.server.store)
        index = next(name for name, data in self.source.files["both"].items() if b'"manifests"' in data)
        inner = json.loads(self.source.files["both"][index])["manifests"][0]["digest"]
        layer = json.loads(self.source.files["both"][inner])["layers"][0]["digest"]
        # Platforms are revisions of their own, so the shortest chain leads from there.
        self.assertEqual(json.loads(oci("why", "--json", layer, self.server.store).stdout)["chain"], ["", inner, layer])
        self.assertEqual(oci("why", index, self.server.store).stdout.splitlines(), ["the tags: plant/b:both", "  " + index])

    def test_faults(self):
        """A tag that cannot be read, or whose manifest is not there: nothing is done."""
        current = self.server.store / TREE / "repositories" / "plant" / "b" / "_manifests" / "tags" / "both" / "current" / "link"
        text, before = current.read_text(), self.server.blobs()
        for wrong in ("", "sha256:" + "0" * 64):
            current.write_text(wrong)
            self.assertTrue(self.prune(status=1)["error"])
        current.write_text(text)
        self.assertEqual(self.server.blobs(), before)
        (self.folder / "empty").mkdir()
        self.assertIn("no registry's folder", oci("plan", self.folder / "empty", status=1).stderr)
        self.whole()

    def pushes(self, count):
        """So many pushes by skopeo beside prunes; how many finished, and how many of those lack a blob right afterwards."""
        old = [self.source.image(f"old{number}")[2] for number in range(count // 2)]
        for number in range(count // 2):
            self.server.push(self.source.folder, "plant/c", f"old{number}")
            self.server.delete("plant/c", f"old{number}")
        time.sleep(GRACE)
        stop, finished, broken = threading.Event(), 0, 0

        def loop():
            while not stop.is_set():
                run_quietly(COMMAND, "prune", "--grace", f"{GRACE}s", "--untagged", self.server.store)
                time.sleep(random.random() / 5)

        collector = threading.Thread(target=loop)
        collector.start()
        try:
            for number in range(count):
                # Each second one reuses layers that are dead.
                self.source.image(f"t{number}", shared=old[number // 2][:2] if number % 2 else ())
                if self.server.push(self.source.folder, "plant/c", f"t{number}", check=False):
                    self.tags.append(("plant/c", f"t{number}"))
                    finished += 1
                    broken += not {name[7:] for name in self.source.files[f"t{number}"]} <= self.server.blobs()
        finally:
            stop.set()
            collector.join()
        return finished, broken

    def test_pushes_beside_prune(self):
        """After one further prune every finished push is whole, in the folder and from the server."""
        self.assertGreater(self.pushes(16)[0], 4)
        oci("prune", "--grace", "0", self.server.store)
        self.whole()
        self.server.restart()
        self.whole()

    def test_killed(self):
        """Killed at any moment, no tag is broken, and another run does the rest."""
        for number in range(12):
            for _ in range(2):
                tag = f"dead{random.random()}"[:12]
                self.source.image(tag)
                self.server.push(self.source.folder, "plant/c", tag)
                self.server.delete("plant/c", tag)
            work = subprocess.Popen([COMMAND, "prune", *NOW, self.server.store], stdout=subprocess.DEVNULL, stderr=subprocess.DEVNULL)
            time.sleep(0.0015 * number)
            work.send_signal(signal.SIGKILL)
            work.wait()
            self.assertEqual(self.plan()["missing"], [])
        self.whole()
        self.prune()
        self.assertEqual(self.plan()["dead"], [])
        self.whole()

    def test_cache(self):
        """With its cache of descriptors the registry takes to be there what has gone, until it is started again."""
        self.server.stop()
        self.server.cache = True
        self.server.start()
        layer = next(json.loads(data)["layers"][-1]["digest"] for data in self.source.files["two"].values() if b'"layers": [{' in data)

        def there():
            return self.server.ask("HEAD", f"/v2/plant/a/app/blobs/{layer}")[0] == 200

        # A push leaves out what was moved, and finishes; restore makes it whole.
        self.assertTrue(there())
        self.server.delete("plant/a/app", "two")
        self.assertEqual(len(json.loads(oci("prune", "--json", "--grace", "0", self.server.store).stdout)["moved"]), 4)
        self.assertTrue(there())
        self.server.push(self.source.folder, "plant/a/app", "two")
        self.assertNotIn(layer[7:], self.server.blobs())
        oci("restore", self.server.store)
        self.whole()
        # What was deleted cannot be put back: the server has to be started anew before.
        self.server.delete("plant/a/app", "two")
        self.assertEqual(len({one["digest"] for one in self.prune()["deleted"]}), 4)  # and what was moved and pushed anew
        self.assertTrue(there())
        self.server.restart()
        self.assertFalse(there())
        self.server.push(self.source.folder, "plant/a/app", "two")
        self.whole()


def run_quietly(*words):
    subprocess.run([str(word) for word in words], stdout=subprocess.DEVNULL, stderr=subprocess.DEVNULL, check=False)


if __name__ == "__main__":
    unittest.main()
