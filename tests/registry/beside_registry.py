#!/usr/bin/env python3
"""Prints the tables of docs/OCI.md: kullneyra-oci prune beside the registry's own garbage-collect, on copies of the same trees (make oci first).

    tests/registry/beside_registry.py [SCALE]

SCALE divides the numbers of blobs of the second table, 1 by default.
"""

import hashlib
import json
import shutil
import statistics
import subprocess
import sys
import tempfile
from pathlib import Path

import server as made

OWN = ["docker-registry", "garbage-collect"]
PRUNE = [str(made.COMMAND), "prune", "--grace", "0"]
NOW = ["--retention", "0"]


class Case:
    """A registry with `one` and `two`, which share a layer, and what a change makes of it."""

    def __init__(self, folder):
        self.server, self.source = made.Server(folder / "server").start(), made.Source(folder / "source")
        self.tags, self.signatures = [], set()
        self.one, _, parts = self.source.image("one")
        self.source.image("two", shared=parts[:1])
        for tag in ("one", "two"):
            self.push("plant/a", tag)

    def push(self, name, tag):
        self.server.push(self.source.folder, name, tag)
        self.tags.append((name, tag))

    def drop(self, name, tag):
        self.server.delete(name, tag)
        self.tags.remove((name, tag))


def deleted(case):
    case.drop("plant/a", "two")


def moved(case):
    case.source.image("two")
    case.server.push(case.source.folder, "plant/a", "two")


def platforms(case):
    both, _ = case.source.index("both", case.source.image(architecture="amd64"), case.source.image(architecture="arm64"))
    case.push("plant/b", "both")
    case.signatures = made.sign(case.server, "plant/b", both)


def shared(case):
    case.push("plant/b", "two")
    case.drop("plant/a", "two")


def damaged(case):
    path = case.server.store / made.TREE / "blobs" / "sha256" / case.one["digest"][7:9] / case.one["digest"][7:] / "data"
    path.write_bytes(path.read_bytes()[:-20])
    case.drop("plant/a", "two")


CASES = [
    ("a tag deleted", deleted),
    ("a tag moved on", moved),
    ("an index of two platforms, and a signature by subject", platforms),
    ("an image deleted in one of two repositories", shared),
    ("a manifest with a tag cut off, another tag deleted", damaged),
]


def broken(case, folder):
    """Tags that cannot be copied out any more, byte for byte, and whether a signature is gone."""
    count = 0
    for name, tag in case.tags:
        try:
            got = case.server.pull(name, tag, folder / "out")
            count += any(got.get(digest) != data for digest, data in case.source.files[tag].items())
        except AssertionError:
            count += 1
    return count, bool(case.signatures - case.server.blobs())


def first():
    sides = (("`garbage-collect`", lambda case: [*OWN, str(case.server.config())]), ("`garbage-collect -m`", lambda case: [*OWN, "-m", str(case.server.config())]),
             ("`prune`", lambda case: [*PRUNE, *NOW, str(case.server.store)]), ("`prune --untagged`", lambda case: [*PRUNE, *NOW, "--untagged", str(case.server.store)]))
    print("| Tree | " + " | ".join(name for name, _ in sides) + " |")
    print("|---|" + "---|" * len(sides))

    def told(case, folder):
        tags, signature = broken(case, folder)
        words = [f"{tags} tag{'s' * (tags > 1)} broken"] if tags else []
        return ", ".join(words + ["signature gone"] * signature)

    for name, change in CASES:
        folder = Path(tempfile.mkdtemp())
        case = Case(folder)
        try:
            change(case)
            row = []
            case.server.stop()
            shutil.copytree(case.server.store, folder / "tree")
            for _, words in sides:
                shutil.rmtree(case.server.store)
                shutil.copytree(folder / "tree", case.server.store)
                before = case.server.blobs()
                status = subprocess.run(words(case), stdout=subprocess.DEVNULL, stderr=subprocess.DEVNULL).returncode
                gone = f"{len(before - case.server.blobs())} deleted" + (f", status {status}" if status else "")
                case.server.start()
                row.append(", ".join(filter(None, (gone, told(case, folder)))))
                case.server.stop()
        finally:
            case.server.stop()
            shutil.rmtree(folder)
        print(f"| {name} | {' | '.join(row)} |", flush=True)


def fill(store, count):
    """So many blobs, four to an image, in 50 repositories, every other image deleted."""
    top = store / made.TREE

    def write(path, data):
        path.parent.mkdir(parents=True, exist_ok=True)
        path.write_bytes(data)

    def blob(data):
        name = hashlib.sha256(data).hexdigest()
        write(top / "blobs" / "sha256" / name[:2] / name / "data", data)
        return {"digest": "sha256:" + name, "size": len(data)}

    for number in range(count // 4):
        repository = top / "repositories" / "plant" / str(number % 50)
        config = {**blob(b'{"os":"linux","number":%d}' % number), "mediaType": made.CONFIG}
        layers = [{**blob(b"\x1f\x8b%d %d" % (number, k)), "mediaType": made.LAYER} for k in range(2)]
        manifest = blob(json.dumps({"schemaVersion": 2, "mediaType": made.MANIFEST, "config": config, "layers": layers}).encode())
        for one in (config, *layers):
            write(repository / "_layers" / "sha256" / one["digest"][7:] / "link", one["digest"].encode())
        revision = repository / "_manifests" / "revisions" / "sha256" / manifest["digest"][7:]
        if number % 2:
            write(revision / "link", manifest["digest"].encode())
            write(repository / "_manifests" / "tags" / f"t{number}" / "current" / "link", manifest["digest"].encode())
            write(repository / "_manifests" / "tags" / f"t{number}" / "index" / "sha256" / manifest["digest"][7:] / "link", manifest["digest"].encode())
        else:
            revision.mkdir(parents=True)


# The memory of a process counts from before it became the command, so a small one starts it.
MEASURE = """import json, os, sys, time
began = time.monotonic()
_, status, used = os.wait4(os.posix_spawnp(sys.argv[1], sys.argv[1:], os.environ), 0)
print(json.dumps([os.waitstatus_to_exitcode(status), used.ru_utime + used.ru_stime, time.monotonic() - began, used.ru_maxrss / 1024]), file=sys.stderr)"""


def measure(words):
    done = subprocess.run([sys.executable, "-SEc", MEASURE, *words], stdout=subprocess.DEVNULL, stderr=subprocess.PIPE, check=True)
    status, *figures = json.loads(done.stderr.splitlines()[-1])
    assert status == 0, words
    return figures


def second(scale):
    print("| Blobs, half of them dead | Command | processor: s | clock: s | MiB | blobs left |")
    print("|--:|---|--:|--:|--:|--:|")
    for count, runs in ((10000, 3), (100000, 1)):
        folder = Path(tempfile.mkdtemp())
        try:
            server = made.Server(folder / "server")
            fill(folder / "tree", count // scale)
            sides = {"`garbage-collect`": [*OWN, str(server.config())], "`prune`": [*PRUNE, str(server.store)],
                     "`prune --retention 0`": [*PRUNE, *NOW, str(server.store)], "`plan`": [str(made.COMMAND), "plan", "--grace", "0", str(server.store)]}
            rows = {name: [] for name in sides}
            for _ in range(runs):
                for name, words in sides.items():
                    shutil.rmtree(server.store)
                    subprocess.run(["cp", "-a", folder / "tree", server.store], check=True)
                    rows[name].append([*measure(words), len(server.blobs())])
            for name, row in rows.items():
                processor, clock, memory, left = map(statistics.median, zip(*row))
                print(f"| {count:,} | {name} | {processor:.1f} | {clock:.1f} | {memory:.0f} | {left:,.0f} |", flush=True)
        finally:
            shutil.rmtree(folder)


if __name__ == "__main__":
    first()
    print()
    second(int(sys.argv[1]) if len(sys.argv) > 1 else 1)
