#!/usr/bin/env python3
"""Prints the tables of docs/OCI.md: kullneyra-oci prune beside umoci gc on copies of the same layouts (make oci first).

    tests/go/beside_umoci.py [SCALE]

SCALE divides the numbers of blobs of the second table, 1 by default.
"""

import json
import shutil
import statistics
import subprocess
import sys
import tempfile
from pathlib import Path

import test_layouts as made


def docker(case):
    case.test_docker_types()


def signature(case):
    case.signature(case.entry("one"))


def stray(case):
    made.unlist(case.layout, "two")
    (case.layout / "blobs" / "sha256" / "notes.txt").write_text("stray")


def removed(case):
    made.unlist(case.layout, "two")


def damaged(case):
    made.unlist(case.layout, "two")
    one = case.entry("one")
    made.blob_path(case.layout, one["digest"]).write_text('{"schemaVersion": 2, "config"')


def exchanged(case):
    removed(case)
    made.blob_path(case.layout, case.entry("one")["digest"]).write_bytes(made.blob_path(case.layout, case.entry("three")["digest"]).read_bytes())


def linked(case):
    removed(case)
    path = made.blob_path(case.layout, case.entry("one")["digest"])
    path.rename(case.layout / "elsewhere")
    path.symlink_to("../../elsewhere")


def absent(case):
    removed(case)
    made.blob_path(case.layout, case.entry("one")["digest"]).unlink()


def otherwise(case):
    index = json.loads((case.layout / "index.json").read_text())
    for one in index["manifests"]:
        one["mediaType"] = made.LAYER
    (case.layout / "index.json").write_text(json.dumps(index))


def shared(case):
    removed(case)
    (case.layout / "blobs").rename(case.layout / "elsewhere")
    (case.layout / "blobs").symlink_to("elsewhere")


def damaged_dead(case):
    path = made.blob_path(case.layout, case.entry("two")["digest"])
    removed(case)
    path.write_text(path.read_text()[:-40])


CASES = [
    ("a tag removed", removed),
    ("an image with Docker's media types", docker),
    ("a signature that the index does not list", signature),
    ("all entries listed under a layer's type", otherwise),
    ("a stray file below blobs/, a tag removed", stray),
    ("a live manifest cut off, a tag removed", damaged),
    ("another manifest in the place of a live one, a tag removed", exchanged),
    ("a dead manifest cut off", damaged_dead),
    ("a live manifest is a link, a tag removed", linked),
    ("a live manifest is absent, a tag removed", absent),
    ("blobs/ is a link, a tag removed", shared),
]


def names(layout):
    return {path.name for path in (layout / "blobs").glob("*/*")} if (layout / "blobs").exists() else set()


# The memory of a process counts from before it became the command, so a small one starts it.
MEASURE = """import json, os, sys
_, status, used = os.wait4(os.posix_spawnp(sys.argv[1], sys.argv[1:], os.environ), 0)
print(json.dumps([os.waitstatus_to_exitcode(status), 1000 * (used.ru_utime + used.ru_stime), used.ru_maxrss / 1024]), file=sys.stderr)"""


def collect(words, layout):
    """Deleted blobs, exit status, milliseconds of the processors, and MiB of memory."""
    before = names(layout)
    done = subprocess.run([sys.executable, "-SEc", MEASURE, *words, str(layout)], stdout=subprocess.DEVNULL, stderr=subprocess.PIPE, check=True)
    return before - names(layout), *json.loads(done.stderr.splitlines()[-1])


UMOCI = ["umoci", "gc", "--layout"]
PRUNE = [str(made.COMMAND), "prune", *made.NOW]
PLAN = [str(made.COMMAND), "plan", "--grace", "0"]


def first():
    print("| Layout | `umoci gc` deletes | status | `kullneyra-oci prune` deletes | status |")
    print("|---|--:|--:|--:|--:|")
    made.Layouts.setUpClass()
    try:
        for name, change in CASES:
            case = made.Layouts()
            case.setUp()
            try:
                change(case)
                other = case.folder / "other"
                shutil.copytree(case.layout, other, symlinks=True)
                theirs, ours = collect(UMOCI, other), collect(PRUNE, case.layout)
            finally:
                shutil.rmtree(case.folder)
            row = [f"{len(gone)} | {status}" for gone, status, *_ in (theirs, ours)]
            print(f"| {name} | {' | '.join(row)} |", flush=True)
    finally:
        made.Layouts.tearDownClass()


def large(layout, count):
    made.fill(layout, count // 4)


def layers(layout, count):
    made.fill(layout, 4)
    for number in range(count):
        made.put(layout, b"\x1f\x8b" + number.to_bytes(4, "big") * (1 << 20))


RUNS = 5


def medians(sides, template, folder):
    """Milliseconds and MiB of each command on copies of a layout, run in turns."""
    rows = [[] for _ in sides]
    for _ in range(RUNS):
        for words, row in zip(sides, rows):
            subprocess.run(["cp", "-a", template, folder / "copy"], check=True)
            _, status, took, memory = collect(words, folder / "copy")
            assert status == 0, words
            row.append((took, memory))
            shutil.rmtree(folder / "copy")
    return [tuple(statistics.median(column) for column in zip(*row)) for row in rows]


def second(scale):
    print("| Layout | `umoci gc`: ms | MiB | `prune`: ms | MiB | with `--retention 0`: ms | MiB | `plan`: ms | MiB |")
    print("|---|--:|--:|--:|--:|--:|--:|--:|--:|")
    hashed = []
    for name, fill, count in (("1,000 blobs, half of them dead", large, 1000), ("10,000 blobs, half of them dead", large, 10000),
                              ("50,000 blobs, half of them dead", large, 50000), ("200 dead layers of 4 MiB", layers, 200)):
        folder = Path(tempfile.mkdtemp())
        try:
            layout = folder / "layout"
            layout.mkdir()
            (layout / "oci-layout").write_text('{"imageLayoutVersion":"1.0.0"}')
            (layout / "index.json").write_text('{"schemaVersion":2,"manifests":[]}')
            fill(layout, count // scale)
            row = medians((UMOCI, PRUNE[:-2], PRUNE, PLAN), layout, folder)
            print(f"| {name} | {' | '.join(f'{took:.0f} | {memory:.0f}' for took, memory in row)} |", flush=True)
            hashed.append((name, medians((["sh", "-c", 'cd "$0" && exec find blobs -type f -exec sha256sum {} +'], [*PLAN, "--verify"]), layout, folder)))
        finally:
            shutil.rmtree(folder)
    print()
    print("| Layout | `sha256sum` of all blobs: ms | `plan --verify`: ms |")
    print("|---|--:|--:|")
    for name, ((theirs, _), (ours, _)) in hashed:
        print(f"| {name} | {theirs:.0f} | {ours:.0f} |")


if __name__ == "__main__":
    first()
    print()
    second(int(sys.argv[1]) if len(sys.argv) > 1 else 1)
