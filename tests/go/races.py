"""Pushes by skopeo beside a collection of the same layout: how many finished pushes lack a blob, before and after one further prune."""

import gzip
import hashlib
import json
import os
import random
import shutil
import subprocess
import threading
import time
from pathlib import Path

COMMAND = Path(__file__).resolve().parents[2] / "target" / "bin" / "kullneyra-oci"
MANIFEST = "application/vnd.oci.image.manifest.v1+json"
CONFIG = "application/vnd.oci.image.config.v1+json"
LAYER = "application/vnd.oci.image.layer.v1.tar+gzip"
PRUNE = (str(COMMAND), "prune", "--grace", "0")
UMOCI = ("umoci", "gc", "--layout")


def put(layout, data):
    name = hashlib.sha256(data).hexdigest()
    (layout / "blobs" / "sha256" / name).write_bytes(data)
    return {"digest": "sha256:" + name, "size": len(data)}


def init(layout):
    (layout / "blobs" / "sha256").mkdir(parents=True)
    (layout / "oci-layout").write_text('{"imageLayoutVersion":"1.0.0"}')
    (layout / "index.json").write_text('{"schemaVersion":2,"manifests":[]}')


def image(layout, layers=3):
    """Writes the blobs of an image; its entry, and the digests of all of them."""
    made = [{**put(layout, gzip.compress(os.urandom(2000))), "mediaType": LAYER} for _ in range(layers)]
    config = {**put(layout, json.dumps({"os": "linux", "architecture": "amd64", "rootfs": {"type": "layers", "diff_ids": [
        one["digest"] for one in made]}, "salt": random.random()}).encode()), "mediaType": CONFIG}
    text = json.dumps({"schemaVersion": 2, "mediaType": MANIFEST, "config": config, "layers": made}).encode()
    entry = {**put(layout, text), "mediaType": MANIFEST}
    return entry, [one["digest"] for one in (entry, config, *made)]


class Race:
    """One layout, one source of images, and a collector that runs beside the pushes."""

    def __init__(self, folder, collector, reused):
        self.folder, self.collector, self.reused = Path(folder), collector, reused
        self.layout, self.source = self.folder / "layout", self.folder / "source"
        init(self.layout)
        init(self.source)
        self.pushed = {}  # tag -> digests
        self.gone = 0

    def prepare(self, number, dead=60):
        """An image to be pushed, and some blobs that nothing names."""
        entry, names = image(self.source)
        tag = f"t{number}"
        index = {"schemaVersion": 2, "manifests": [{**entry, "annotations": {"org.opencontainers.image.ref.name": tag}}]}
        (self.source / "index.json").write_text(json.dumps(index))
        if self.reused:
            for name in names[1:]:  # the manifest comes with the push
                shutil.copyfile(self.source / "blobs" / "sha256" / name[7:], self.layout / "blobs" / "sha256" / name[7:])
        for _ in range(dead // 5):
            image(self.layout)
        return tag, names

    def collect(self):
        subprocess.run([*self.collector, str(self.layout)], stdout=subprocess.DEVNULL, stderr=subprocess.DEVNULL, check=False)

    def push(self, tag, names):
        done = subprocess.run(["skopeo", "copy", "--quiet", "--insecure-policy", f"oci:{self.source}:{tag}", f"oci:{self.layout}:{tag}"],
                              capture_output=True, check=False)
        if done.returncode == 0:
            self.pushed[tag] = names

    def broken(self):
        """The finished pushes of which a blob, or the entry, is not there."""
        listed = {one["digest"] for one in json.loads((self.layout / "index.json").read_text())["manifests"] or []}
        there = {path.name for path in (self.layout / "blobs" / "sha256").iterdir()}
        return [tag for tag, names in self.pushed.items() if names[0] not in listed or any(name[7:] not in there for name in names)]

    def look(self, tag):
        """Whether this push is broken. umoci stops at what is broken, so a broken one is taken out of its layout and counted."""
        if tag not in self.broken():
            return False
        if self.collector == UMOCI:
            path, name = self.layout / "index.json", self.pushed[tag][0]
            index = json.loads(path.read_text())
            index["manifests"] = [one for one in index["manifests"] if one["digest"] != name]
            path.write_text(json.dumps(index))
            self.gone += 1
            del self.pushed[tag]
        return True

    def beside_one(self, count):
        """Each push beside one collection; how many finished, and how many of those were broken right afterwards."""
        broken = 0
        for number in range(count):
            tag, names = self.prepare(number)
            push = threading.Thread(target=self.push, args=(tag, names))
            push.start()
            time.sleep(random.random() * 0.06)
            self.collect()
            push.join()
            broken += self.look(tag)
        return len(self.pushed) + self.gone, broken

    def beside_loop(self, count):
        """Pushes one after the other, beside collections in a loop."""
        stop = threading.Event()

        def loop():
            while not stop.is_set():
                self.collect()

        collector = threading.Thread(target=loop)
        collector.start()
        broken = 0
        try:
            for number in range(count):
                tag, names = self.prepare(number, dead=20)
                self.push(tag, names)
                broken += self.look(tag)
        finally:
            stop.set()
            collector.join()
        return len(self.pushed) + self.gone, broken
