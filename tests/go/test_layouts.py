"""kullneyra-oci on layouts that skopeo, umoci and buildah made: what it lists and deletes, and that every tag still works."""

import fcntl
import hashlib
import json
import os
import shutil
import signal
import subprocess
import sys
import tempfile
import time
import unittest
from pathlib import Path

TOP = Path(__file__).resolve().parents[2]
sys.path.insert(0, str(TOP / "tools"))
import course_map  # noqa: E402
import course_run as play  # noqa: E402
import course_serve  # noqa: E402
from course_words import words  # noqa: E402
import races  # noqa: E402

COMMAND = TOP / "target" / "bin" / "kullneyra-oci"
DOCKER = "application/vnd.docker.distribution.manifest.v2+json"
DOCKER_CONFIG = "application/vnd.docker.container.image.v1+json"
DOCKER_LAYER = "application/vnd.docker.image.rootfs.diff.tar.gzip"
MANIFEST = "application/vnd.oci.image.manifest.v1+json"
INDEX = "application/vnd.oci.image.index.v1+json"
LAYER = "application/vnd.oci.image.layer.v1.tar+gzip"


def run(*words, status=0, **options):
    done = subprocess.run([str(word) for word in words], capture_output=True, text=True, **options)
    if done.returncode != status:
        raise AssertionError(f"{words}: status {done.returncode}\n{done.stdout}{done.stderr}")
    return done


def oci(*words, status=0):
    return run(COMMAND, *words, status=status)


# What nobody writes to: nothing is too young, and nothing is kept.
NOW = ("--grace", "0", "--retention", "0")


def plan(layout, *words):
    return json.loads(oci("plan", "--json", "--grace", "0", *words, layout).stdout)


def blob_path(layout, digest):
    return layout / "blobs" / Path(*digest.split(":"))


def put(layout, data):
    """Writes a blob; its digest and size as a descriptor without a type."""
    data = data if isinstance(data, bytes) else json.dumps(data).encode()
    digest = "sha256:" + hashlib.sha256(data).hexdigest()
    path = blob_path(layout, digest)
    path.parent.mkdir(parents=True, exist_ok=True)
    path.write_bytes(data)
    return {"digest": digest, "size": len(data)}


def listed(layout, *more):
    """Adds entries to index.json; answers all of them."""
    path = layout / "index.json"
    index = json.loads(path.read_text())
    index["manifests"] = (index["manifests"] or []) + list(more)
    path.write_text(json.dumps(index))
    return index["manifests"]


def unlist(layout, tag):
    path = layout / "index.json"
    index = json.loads(path.read_text())
    kept = [one for one in index["manifests"] if one.get("annotations", {}).get("org.opencontainers.image.ref.name") != tag]
    path.write_text(json.dumps({**index, "manifests": kept}))


def blobs(layout):
    return {path.name for path in (layout / "blobs").glob("*/*")}


def unpack(layout, tag, bundle):
    rootless = () if os.getuid() == 0 else ("--rootless",)
    run("umoci", "unpack", *rootless, "--image", f"{layout}:{tag}", bundle)


def fill(layout, count):
    """So many images of four blobs each, every other one listed."""
    entries = []
    for number in range(count):
        config = {**put(layout, {"os": "linux", "number": number}), "mediaType": "application/vnd.oci.image.config.v1+json"}
        layers = [{**put(layout, b"\x1f\x8b%d %d" % (number, k)), "mediaType": LAYER} for k in range(2)]
        manifest = {"schemaVersion": 2, "mediaType": MANIFEST, "config": config, "layers": layers}
        entry = {**put(layout, manifest), "mediaType": MANIFEST}
        if number % 2:
            entries.append(entry)
    listed(layout, *entries)


class Layouts(unittest.TestCase):
    @classmethod
    def setUpClass(cls):
        cls.made = Path(tempfile.mkdtemp())
        cls.umoci = cls.made / "umoci"
        run("umoci", "init", "--layout", cls.umoci)
        run("umoci", "new", "--image", f"{cls.umoci}:empty")
        for number, tag in enumerate(("one", "two", "three")):
            bundle = cls.made / f"bundle-{tag}"
            base = ("empty", "one", "one")[number]
            unpack(cls.umoci, base, bundle)
            (bundle / "rootfs" / tag).write_bytes(os.urandom(20_000))
            run("umoci", "repack", "--image", f"{cls.umoci}:{tag}", bundle)

    @classmethod
    def tearDownClass(cls):
        shutil.rmtree(cls.made)

    def setUp(self):
        self.folder = Path(tempfile.mkdtemp())
        self.layout = self.folder / "layout"
        shutil.copytree(self.umoci, self.layout, symlinks=True)

    def tearDown(self):
        run("chmod", "-R", "u+rwX", self.folder)  # who is not root cannot delete from folders that are closed
        shutil.rmtree(self.folder)

    def tags(self):
        return [one["annotations"]["org.opencontainers.image.ref.name"] for one in listed(self.layout) if "annotations" in one]

    def works(self):
        """Every tag can be copied, with all of its blobs, and unpacked."""
        for tag in self.tags():
            run("skopeo", "copy", "--insecure-policy", f"oci:{self.layout}:{tag}", f"oci:{self.folder}/copy-{tag}:{tag}")
            unpack(self.layout, tag, self.folder / f"unpacked-{tag}")
            self.assertTrue((self.folder / f"unpacked-{tag}" / "rootfs" / tag).exists() or tag == "empty")

    def pruned(self, *words):
        """Prunes, and says which blobs went."""
        before, told = blobs(self.layout), plan(self.layout, *words)
        self.assertEqual(blobs(self.layout), before)
        oci("prune", *NOW, *words, self.layout)
        gone = before - blobs(self.layout)
        self.assertEqual(gone, {one["digest"].split(":")[1] for one in told["dead"]})
        self.assertEqual(plan(self.layout, *words)["dead"], [])
        self.assertEqual(list(self.layout.glob(".kullneyra*")), [])
        return gone

    def test_all_tags(self):
        self.assertEqual(self.pruned(), set())
        self.works()

    def test_tag_removed(self):
        run("umoci", "rm", "--image", f"{self.layout}:two")
        other = self.folder / "other"
        shutil.copytree(self.layout, other)
        gone = self.pruned()
        self.assertEqual(len(gone), 3)  # manifest, configuration, and the layer that only it had
        run("umoci", "gc", "--layout", other)
        self.assertEqual(blobs(self.layout), blobs(other))
        self.works()

    def test_kept(self):
        two = next(one for one in listed(self.layout) if one["annotations"]["org.opencontainers.image.ref.name"] == "two")
        unlist(self.layout, "two")
        self.assertEqual(self.pruned("--keep", two["digest"]), set())
        self.assertEqual(len(self.pruned()), 3)

    def test_two_platforms(self):
        one, two = (self.entry(tag) for tag in ("one", "two"))
        for tag in ("one", "two", "three", "empty"):
            unlist(self.layout, tag)
        inner = put(self.layout, {"schemaVersion": 2, "mediaType": INDEX, "manifests": [
            {**one, "platform": {"os": "linux", "architecture": "amd64"}},
            {**two, "platform": {"os": "linux", "architecture": "arm64"}},
            {"mediaType": MANIFEST, "digest": "sha256:" + "0" * 64, "size": 1, "platform": {"os": "linux", "architecture": "s390x"}},
        ]})
        listed(self.layout, {**inner, "mediaType": INDEX, "annotations": {"org.opencontainers.image.ref.name": "both"}})
        told = plan(self.layout)
        self.assertEqual([one["digest"][-3:] for one in told["missing"]], ["000"])
        self.assertEqual(len(self.pruned()), 5)  # three's three, and the empty image's manifest and configuration
        run("skopeo", "inspect", "--override-arch", "arm64", f"oci:{self.layout}:both")

    def entry(self, tag):
        one = next(one for one in listed(self.layout) if one["annotations"]["org.opencontainers.image.ref.name"] == tag)
        return {key: one[key] for key in ("mediaType", "digest", "size")}

    def signature(self, subject):
        """An unlisted signature by subject; the digests of its three blobs."""
        config = {**put(self.layout, {"signed": subject["digest"]}), "mediaType": "application/vnd.example.signature.config+json"}
        layer = {**put(self.layout, os.urandom(64)), "mediaType": "application/vnd.example.signature"}
        manifest = {"schemaVersion": 2, "mediaType": MANIFEST, "config": config, "layers": [layer], "subject": subject}
        return {one["digest"].split(":")[1] for one in (config, layer, put(self.layout, manifest))}

    def test_signature(self):
        of_one, of_two = self.signature(self.entry("one")), self.signature(self.entry("two"))
        self.assertEqual(self.pruned(), set())
        unlist(self.layout, "two")
        gone = self.pruned()
        self.assertTrue(of_two <= gone and not of_one & gone)
        self.assertEqual(len(gone), 6)
        self.works()

    def test_docker_types(self):
        config = {**put(self.layout, {"os": "linux"}), "mediaType": DOCKER_CONFIG}
        layer = {**put(self.layout, os.urandom(64)), "mediaType": DOCKER_LAYER}
        manifest = put(self.layout, {"schemaVersion": 2, "mediaType": DOCKER, "config": config, "layers": [layer]})
        listed(self.layout, {**manifest, "mediaType": DOCKER})
        self.assertEqual(self.pruned(), set())

    def test_stray_files(self):
        for name in ("sha256/notes.txt", "sha256/.download", "sha256/" + "g" * 64, "other/x"):
            path = self.layout / "blobs" / name
            path.parent.mkdir(exist_ok=True)
            path.write_text("stray")
        unlist(self.layout, "three")
        said = oci("prune", *NOW, self.layout).stderr
        for name in ("notes.txt", ".download", "g" * 64):
            self.assertIn(name, said)
        self.assertTrue((self.layout / "blobs" / "sha256" / "notes.txt").exists())
        self.works()

    def refused(self, *words):
        """A fault: status 1, told, and nothing deleted."""
        before = blobs(self.layout)
        for command in ("plan", "prune"):
            said = oci(command, "--grace", "0", *words, self.layout, status=1)
            self.assertEqual(said.stdout, "")
            self.assertIn("kullneyra-oci: ", said.stderr)
            told = json.loads(oci(command, "--grace", "0", "--json", *words, self.layout, status=1).stdout)
            self.assertEqual((told["schemaVersion"], told["status"], told["command"]), (1, 1, command))
            self.assertIn(told["error"], said.stderr)
        self.assertEqual(blobs(self.layout), before)
        return said.stderr

    def test_damaged_manifest(self):
        one = self.entry("one")
        blob_path(self.layout, one["digest"]).write_text('{"schemaVersion": 2, "config"')
        unlist(self.layout, "two")
        self.assertIn(one["digest"], self.refused())

    def test_damaged_index(self):
        (self.layout / "index.json").write_text("{")
        self.assertIn("index.json", self.refused())

    def test_verify(self):
        three = self.entry("three")
        manifest = json.loads(blob_path(self.layout, three["digest"]).read_text())
        blob_path(self.layout, manifest["layers"][-1]["digest"]).write_bytes(b"damaged")
        oci("plan", self.layout)
        self.assertIn(manifest["layers"][-1]["digest"], self.refused("--verify"))

    def test_progress(self):
        """Told on a terminal, and not in a pipe."""
        self.assertEqual(oci("plan", "--verify", self.layout).stderr, "")
        ours, theirs = os.openpty()
        subprocess.run([COMMAND, "plan", "--verify", self.layout], stdout=subprocess.DEVNULL, stderr=theirs, check=True)
        self.assertIn(b"hashed", os.read(ours, 4096))
        os.close(ours)
        os.close(theirs)

    def test_kept_by_tag(self):
        self.assertEqual(self.pruned("--keep", "one"), set())
        self.assertIn("no such tag", self.refused("--keep", "four"))

    def test_kept_is_not_there(self):
        self.assertIn("0" * 64, self.refused("--keep", "sha256:" + "0" * 64))

    def test_usage(self):
        for words, told in (((), "command"), (("plan",), "STORE"), (("plan", "a", "b"), '"b"'), (("remove", "a"), "remove"),
                            (("plan", "--what", "a"), "--what"), (("plan", "--grace", "x", "a"), "--grace"), (("catalogue", "a"), "FOLDER"),
                            (("catalogue", "--boxes", "17", "a", "b"), "--boxes"), (("why", "x", "a"), '"x"'),
                            (("catalogue", "--turns", "1", "--seed", "1,0", "a", "b"), "--turns")):
            said = oci(*words, status=2).stderr
            self.assertIn("usage:", said)
            self.assertIn(told, said)
            answer = json.loads(oci(*words, "--json", status=2).stdout)
            self.assertEqual((answer["schemaVersion"], answer["status"]), (1, 2))
            self.assertTrue(answer["error"])
        for words in (("--help",), ("prune", "--help"), ("help", "prune")):
            self.assertIn("Usage:", oci(*words).stdout)
        self.assertIn("version", oci("--version").stdout)
        for shell in ("bash", "zsh", "fish"):
            self.assertIn("kullneyra-oci", oci("completion", shell).stdout)
        self.assertIn("--retention", oci("__complete", "prune", "--ret").stdout)
        oci("plan", self.folder / "nowhere", status=1)
        # Options may stand behind the layout.
        self.assertEqual(json.loads(oci("plan", self.layout, "--json", "--grace=0").stdout)["dead"], [])

    def test_man_pages(self):
        oci("man", self.folder)
        self.assertIn("retention", (self.folder / "kullneyra-oci-prune.1").read_text())
        self.assertEqual(list(self.folder.glob("*completion*")), [])

    def test_locked(self):
        lock = os.open(self.layout, os.O_RDONLY)
        try:
            fcntl.flock(lock, fcntl.LOCK_EX)
            self.assertIn("another prune", oci("prune", self.layout, status=1).stderr)
            oci("plan", self.layout)
        finally:
            os.close(lock)
        self.assertEqual(self.pruned(), set())

    def test_catalogue(self):
        unlist(self.layout, "two")
        dead = {one["digest"] for one in plan(self.layout)["dead"]}
        for words in ((), ("--boxes", "3"), ("--boxes", "4", "--seed", "7,0"), ("--boxes", "2", "--turns", "300")):
            folder = self.folder / "files"
            oci("catalogue", *words, self.layout, folder)
            names = dict(line.split(" ")[:2] for line in (folder / "objects.txt").read_text().splitlines())
            answer = run(TOP / "target" / "bin" / "collect", cwd=folder).stdout.splitlines()
            self.assertEqual(answer[0], "finished")
            self.assertEqual({names[line.split()[1]] for line in answer if line.startswith("dead")}, dead)
        self.assertEqual(oci("catalogue", "--seed", "0,1", self.layout, folder, status=1).stderr.split(":")[1].strip(), "refusal 16")
        oci("catalogue", "--turns", "1", self.layout, folder)
        self.assertEqual(run(TOP / "target" / "bin" / "collect", cwd=folder).stdout.splitlines()[0], "unfinished")

    def test_manifest_is_a_link(self):
        """skopeo reads a manifest through a link; what it names stays."""
        path = blob_path(self.layout, self.entry("two")["digest"])
        path.rename(self.folder / "elsewhere")
        path.symlink_to(self.folder / "elsewhere")
        for tag in ("one", "three"):
            unlist(self.layout, tag)
        self.assertEqual(len(self.pruned()), 5)  # three's three; one's manifest and configuration
        self.assertTrue(path.is_symlink())
        self.works()

    def test_shared_folder(self):
        """blobs/ is a link that two layouts share: a plan is made, and nothing is moved."""
        other = self.folder / "other"
        shutil.copytree(self.layout, other)
        shutil.rmtree(other / "blobs")
        (other / "blobs").symlink_to(self.layout / "blobs")
        unlist(other, "two")
        self.assertEqual(len(plan(other)["dead"]), 3)
        before = blobs(self.layout)
        self.assertIn("blobs is a link", oci("prune", *NOW, other, status=1).stderr)
        self.assertEqual(blobs(self.layout), before)
        self.works()

    def test_listed_and_absent(self):
        one = self.entry("one")
        unlist(self.layout, "two")
        blob_path(self.layout, one["digest"]).unlink()
        self.assertIn(one["digest"], self.refused())
        oci("plan", "--allow-missing", self.layout)
        blob_path(self.layout, one["digest"]).mkdir()
        self.assertIn(one["digest"], self.refused())

    def test_tag_moved(self):
        """A tag that skopeo moved three times: what the older entries hold is told, and freed with --untagged."""
        target = self.folder / "moved"
        for tag in ("one", "two", "three"):
            run("skopeo", "copy", "--insecure-policy", f"oci:{self.layout}:{tag}", f"oci:{target}:latest")
        said = oci("prune", *NOW, target)
        self.assertIn("2 entries of index.json have no tag", said.stderr)
        self.assertEqual(len(blobs(target)), 9)
        oci("prune", *NOW, "--untagged", target)
        self.assertEqual(len(blobs(target)), 4)  # three's manifest, configuration and two layers
        run("skopeo", "copy", "--insecure-policy", f"oci:{target}:latest", f"oci:{self.folder}/again:latest")

    def test_kept_for_a_day(self):
        """What is dead is moved, not deleted; restore puts back what is named again, and so does the next prune."""
        two, index = self.entry("two"), (self.layout / "index.json").read_text()
        unlist(self.layout, "two")
        self.assertEqual(len(json.loads(oci("prune", "--json", self.layout).stdout)["moved"]), 0)  # younger than an hour
        before = blobs(self.layout)
        for again in (("restore",), ("prune", "--grace", "0")):
            told = json.loads(oci("prune", "--json", "--grace", "0", self.layout).stdout)
            self.assertEqual((len(told["moved"]), len(told["deleted"])), (3, 0))
            self.assertFalse(blob_path(self.layout, two["digest"]).exists())
            (self.layout / "index.json").write_text(index)
            self.assertEqual(len(plan(self.layout)["movedAndNamed"]), 3)
            self.assertEqual(len(json.loads(oci(*again, "--json", self.layout).stdout)["putBack"]), 3)
            self.assertEqual(blobs(self.layout), before)
            self.works_again()
            unlist(self.layout, "two")

    def works_again(self):
        run("skopeo", "copy", "--insecure-policy", f"oci:{self.layout}:two", f"oci:{self.folder}/again:two")

    def test_why(self):
        one = self.entry("one")
        layer = json.loads(blob_path(self.layout, one["digest"]).read_text())["layers"][0]["digest"]
        self.assertRegex(oci("why", layer, self.layout).stdout.splitlines()[0], "^index.json: (one|two|three)$")
        chain = json.loads(oci("why", "--json", layer, self.layout).stdout)["chain"]
        self.assertEqual((chain[0], chain[-1], len(chain)), ("", layer, 3))
        loose = put(self.layout, b"loose")["digest"]
        self.assertIn("younger than 1h", oci("why", loose, self.layout).stdout)
        self.assertIn("it is dead", oci("why", "--grace", "0", loose, self.layout).stdout)
        oci("why", "sha256:" + "0" * 64, self.layout, status=1)

    def test_control_characters(self):
        (self.layout / "blobs" / "sha256" / "a\x1b[31m\nb").write_text("stray")
        said = oci("plan", self.layout).stderr
        self.assertIn("a\\x1b[31m\\nb", said)
        self.assertNotIn("\x1b", said)

    def test_not_allowed(self):
        """Nothing may be written: nothing is done, and a plan is made. One folder may not: the rest is done."""
        unlist(self.layout, "two")
        data = b"\x1f\x8bof another algorithm"
        stuck = self.layout / "blobs" / "sha512" / hashlib.sha512(data).hexdigest()
        stuck.parent.mkdir()
        stuck.write_bytes(data)
        before = blobs(self.layout)
        command, allowed = [shutil.copy(COMMAND, self.folder / "command")], 0o755
        for path in (self.folder, command[0], *self.layout.rglob("*")):
            os.chmod(path, 0o755)
        # Modes do not bind root, so another user runs the command there.
        if os.getuid() == 0:
            command, allowed = ["setpriv", "--reuid=65534", "--regid=65534", "--clear-groups", *command], 0o777
        closed = (self.layout, self.layout / "blobs", self.layout / "blobs" / "sha256", stuck.parent)
        for path in closed:
            os.chmod(path, 0o555)
        self.assertEqual(len(json.loads(run(*command, "plan", "--json", "--grace", "0", self.layout).stdout)["dead"]), 4)
        told = json.loads(run(*command, "prune", "--json", *NOW, self.layout, status=1).stdout)
        self.assertIn("permission denied", told["error"])
        self.assertEqual(blobs(self.layout), before)
        for path in closed[:-1]:
            os.chmod(path, allowed)
        told = json.loads(run(*command, "prune", "--json", *NOW, self.layout, status=3).stdout)
        self.assertEqual((told["status"], len(told["deleted"]), [one["digest"] for one in told["failed"]]), (3, 3, ["sha512:" + stuck.name]))
        self.assertTrue(stuck.exists())
        os.chmod(stuck.parent, 0o755)
        self.works()

    def test_full_disk(self):
        """In a file system of its own, which is full or read-only: nothing is lost, and it is told."""
        own = ["unshare", "--mount"] + ([] if os.getuid() == 0 else ["--map-root-user"])
        run(*own, sys.executable, TOP / "tests" / "go" / "full_disk.py", self.layout, self.folder)

    def test_pushes_beside_prune(self):
        """Some pushes beside prunes: after one further prune no finished push lacks a blob (tests/go/stress has more)."""
        for number, (reused, way) in enumerate(((False, "beside_one"), (True, "beside_one"), (True, "beside_loop"))):
            race = races.Race(self.folder / f"race{number}", races.PRUNE, reused)
            finished, _ = getattr(race, way)(6)
            self.assertGreater(finished, 0)
            race.collect()
            self.assertEqual(race.broken(), [])

    def test_drawn(self):
        """The course's page draws a layout: the same objects are dead, objects have names, and the order is one line; a large one is
        summed up."""
        unlist(self.layout, "two")
        text = course_serve.of_layout(str(self.layout))
        self.assertEqual([line.split()[0] for line in text.splitlines() if line.startswith(("turn", "cards", "seed"))], ["seed"])
        run = play.play(text)
        self.assertTrue(run.finished)
        self.assertEqual(len(run.dead), len(plan(self.layout)["dead"]))
        shown = [owner for _, owner in course_map.node_looks(run, words(), len(run)).values()]
        self.assertEqual(shown.count("dead"), 3)
        self.assertEqual(run.names[0], "index.json")
        self.assertIn("manifest one", run.names)
        self.assertTrue(all(run.names))
        self.many(110)
        run = play.play(course_serve.of_layout(str(self.layout)), 40)
        self.assertIn("too many to draw", course_serve.step(run, 40, 2, "en")["title"])
        with self.assertRaises(play.Fault):
            course_serve.of_layout(str(self.folder / "nowhere"))

    def test_built_and_copied(self):
        """What buildah built and skopeo copied into one layout, with a tag moved to a newer image."""
        context, storage = self.folder / "context", ("--storage-driver", "vfs", "--root", self.folder / "root", "--runroot", self.folder / "run")
        context.mkdir()
        (context / "Dockerfile").write_text("FROM scratch\nCOPY file /file\n")
        target = self.folder / "built"
        for version in ("first", "second"):
            (context / "file").write_text(version)
            run("buildah", *storage, "build", "--isolation", "chroot", "-t", "app", context)
            run("buildah", *storage, "push", "--signature-policy", self.policy(), "app", f"oci:{target}:app")
        run("skopeo", "copy", "--insecure-policy", f"oci:{self.layout}:one", f"oci:{target}:one")
        self.layout = target
        self.assertEqual(self.pruned(), set())  # the older image is still an entry, without a tag
        told = plan(target)["untagged"]
        self.assertEqual(told["entries"], 1)
        freed = plan(target, "--untagged")["freed"]
        self.assertEqual(told["bytes"], freed)
        self.assertGreater(freed, 0)
        before = blobs(target)
        oci("prune", *NOW, "--untagged", target)
        self.assertEqual(len(before - blobs(target)), 3)
        self.assertEqual({one["annotations"]["org.opencontainers.image.ref.name"] for one in listed(target)}, {"app", "one"})
        for tag in ("app", "one"):
            run("skopeo", "copy", "--insecure-policy", f"oci:{target}:{tag}", f"oci:{self.folder}/again:{tag}")

    def policy(self):
        path = self.folder / "policy.json"
        path.write_text('{"default": [{"type": "insecureAcceptAnything"}]}')
        return path

    def many(self, count):
        fill(self.layout, count)

    def test_ten_thousand_blobs(self):
        self.many(2500)
        self.assertEqual(len(self.pruned()), 5000)
        self.works()

    def test_killed(self):
        """Killed at any moment, nothing live is missing, and another run does the rest."""
        self.many(500)
        told = plan(self.layout)
        live = blobs(self.layout) - {one["digest"].split(":")[1] for one in told["dead"]}
        left = blobs(self.layout)
        for number in range(12):
            with open(self.folder / "log", "w") as log:
                work = subprocess.Popen([COMMAND, "prune", *NOW, str(self.layout)], stdout=log, stderr=subprocess.DEVNULL)
                time.sleep(0.004 * number)
                work.send_signal(signal.SIGKILL)
                work.wait()
            # What is deleted stands in the log, but for the one that the kill may have come behind.
            logged = {line.split(":")[1][:64] for line in (self.folder / "log").read_text().splitlines() if line.startswith("deleted")}
            before, left = left, {path.name for path in self.layout.rglob("*") if path.is_file()}
            self.assertLessEqual(len(before - left - logged), 1)
            self.assertTrue(live <= blobs(self.layout))
            self.assertEqual(plan(self.layout)["missing"], [])
        oci("prune", *NOW, self.layout)
        self.assertEqual(blobs(self.layout), live)
        self.works()


if __name__ == "__main__":
    unittest.main()
