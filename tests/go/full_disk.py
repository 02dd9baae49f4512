"""kullneyra-oci where the disk is full, or read-only; run in a mount namespace of its own by test_layouts.

    full_disk.py LAYOUT FOLDER    LAYOUT has the tags one, two and three; FOLDER is free to mount on
"""

import contextlib
import errno
import json
import shutil
import subprocess
import sys
from pathlib import Path

import test_layouts as made


@contextlib.contextmanager
def disk(source, folder, change):
    """A copy of the layout, changed, on a disk of its own with room for little else."""
    place = folder / "disk"
    place.mkdir(exist_ok=True)
    subprocess.run(["mount", "-t", "tmpfs", "-o", "size=1m,nr_inodes=60", "none", place], check=True)
    try:
        layout = place / "layout"
        shutil.copytree(source, layout)
        change(layout)
        yield layout
    finally:
        subprocess.run(["umount", place], check=True)


def fill(layout, files=True):
    """No byte is left, and no file can be made if `files`."""
    with contextlib.suppress(OSError), open(layout.parent / "bytes", "wb", buffering=0) as out:
        while True:
            out.write(bytes(4096))
    for number in range(100 if files else 0):
        try:
            (layout.parent / str(number)).touch()
        except OSError as fault:
            assert fault.errno == errno.ENOSPC
            return
    assert not files, "the disk is not full"


def prune(layout, *words, command="prune", status=0, told="no space left"):
    done = made.oci(command, "--json", *words, layout, status=status)
    answer = json.loads(done.stdout)
    if status:
        assert told in done.stderr and told in answer["error"], done.stderr
    return answer


def main(source, folder):
    def without_two(layout):
        made.unlist(layout, "two")

    # Nothing can be written at all.
    with disk(source, folder, without_two) as layout:
        before = made.blobs(layout)
        subprocess.run(["mount", "-o", "remount,ro", layout.parent], check=True)
        assert len(made.plan(layout)["dead"]) == 3
        prune(layout, *made.NOW, status=1, told="read-only file system")
        assert made.blobs(layout) == before
    # No folder can be made: nothing is moved.
    with disk(source, folder, without_two) as layout:
        fill(layout)
        before = made.blobs(layout)
        prune(layout, *made.NOW, status=1)
        assert made.blobs(layout) == before and not list(layout.glob(".k*"))
        assert len(made.plan(layout)["dead"]) == 3
    # Folders can: what is dead goes, and the disk has room again.
    with disk(source, folder, without_two) as layout:
        fill(layout, files=False)
        assert len(prune(layout, *made.NOW)["deleted"]) == 3
        (layout.parent / "more").write_bytes(bytes(8192))
    # What was moved long ago makes room, what is dead cannot be moved yet: partly done, and another run does the rest.
    with disk(source, folder, without_two) as layout:
        prune(layout, "--grace", "0")
        made.unlist(layout, "three")
        fill(layout)
        before = made.blobs(layout)
        answer = prune(layout, *made.NOW, status=3)
        assert len(answer["deleted"]) == 3 and len(answer["failed"]) == 3 and made.blobs(layout) == before
        assert len(prune(layout, *made.NOW)["deleted"]) == 3
    # What is named again is put back, though nothing can be written.
    with disk(source, folder, lambda layout: None) as layout:
        index, before = (layout / "index.json").read_text(), made.blobs(layout)
        made.unlist(layout, "two")
        assert len(prune(layout, "--grace", "0")["moved"]) == 3
        (layout / "index.json").write_text(index)
        fill(layout)
        assert len(prune(layout, command="restore")["putBack"]) == 3 and made.blobs(layout) == before

    # index.json cannot be written beside itself: it stays as it is, and nothing is moved.
    def untag(layout):
        index = json.loads((layout / "index.json").read_text())
        del index["manifests"][1]["annotations"]
        (layout / "index.json").write_text(json.dumps(index))

    for files in (True, False):
        with disk(source, folder, untag) as layout:
            index, before = (layout / "index.json").read_bytes(), made.blobs(layout)
            fill(layout, files)
            prune(layout, *made.NOW, "--untagged", status=1)
            assert (layout / "index.json").read_bytes() == index and made.blobs(layout) == before
            assert not list(layout.glob(".*")), list(layout.glob(".*"))


if __name__ == "__main__":
    main(Path(sys.argv[1]), Path(sys.argv[2]))
