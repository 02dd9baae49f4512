"""A registry of Debian's docker-registry on loopback, and images that are pushed to it by skopeo."""

import gzip
import hashlib
import http.client
import json
import os
import random
import shutil
import socket
import subprocess
import sys
import time
from pathlib import Path

TOP = Path(__file__).resolve().parents[2]
COMMAND = TOP / "target" / "bin" / "kullneyra-oci"
MANIFEST = "application/vnd.oci.image.manifest.v1+json"
INDEX = "application/vnd.oci.image.index.v1+json"
CONFIG = "application/vnd.oci.image.config.v1+json"
LAYER = "application/vnd.oci.image.layer.v1.tar+gzip"
TREE = Path("docker") / "registry" / "v2"


def run(*words, status=0):
    done = subprocess.run([str(word) for word in words], capture_output=True, text=True)
    if done.returncode != status:
        raise AssertionError(f"{words}: status {done.returncode}\n{done.stdout}{done.stderr}")
    return done


def oci(*words, status=0):
    return run(COMMAND, *words, status=status)


class Server:
    """A registry over a folder; it ends with `stop`."""

    def __init__(self, folder, cache=False):
        self.folder, self.store = Path(folder), Path(folder) / "store"
        self.store.mkdir(parents=True, exist_ok=True)
        self.cache, self.process = cache, None

    def config(self):
        """The configuration, for the server and for its own collector. Nothing listens beyond loopback."""
        cache = "  cache:\n    blobdescriptor: inmemory\n" if self.cache else ""
        path = self.folder / "config.yml"
        path.write_text(f"""version: 0.1
log:
  level: error
  accesslog:
    disabled: true
storage:
{cache}  filesystem:
    rootdirectory: {self.store}
  delete:
    enabled: true
http:
  addr: {self.at()}
""")
        return path

    def at(self):
        return f"127.0.0.1:{self.port}" if self.process else "127.0.0.1:0"

    def start(self):
        with socket.socket() as free:
            free.bind(("127.0.0.1", 0))
            self.port = free.getsockname()[1]
        self.process = True
        words = ["docker-registry", "serve", str(self.config())]
        self.process = subprocess.Popen(words, stdout=subprocess.DEVNULL, stderr=subprocess.DEVNULL, env={**os.environ, "OTEL_TRACES_EXPORTER": "none"})
        for _ in range(200):
            try:
                if self.ask("GET", "/v2/")[0] == 200:
                    return self
            except OSError:
                pass
            if self.process.poll() is not None:
                break
            time.sleep(0.05)
        raise AssertionError("the registry does not answer")

    def stop(self):
        if self.process:
            self.process.terminate()
            self.process.wait()
            self.process = None

    def restart(self):
        self.stop()
        self.start()

    def ask(self, method, path, body=None, headers=None):
        connection = http.client.HTTPConnection("127.0.0.1", self.port, timeout=20)
        try:
            connection.request(method, path, body, headers or {})
            answer = connection.getresponse()
            return answer.status, answer.read(), dict(answer.getheaders())
        finally:
            connection.close()

    def upload(self, name, data):
        """A blob, by the registry's own calls."""
        digest = digest_of(data)
        status, _, headers = self.ask("POST", f"/v2/{name}/blobs/uploads/")
        assert status == 202, status
        place = headers["Location"].split(self.at(), 1)[1]
        status, text, _ = self.ask("PUT", f"{place}{'&' if '?' in place else '?'}digest={digest}", data, {"Content-Type": "application/octet-stream"})
        assert status == 201, text
        return {"digest": digest, "size": len(data)}

    def put(self, name, manifest, tag=None, mediaType=MANIFEST):
        """A manifest, under a tag or by its digest alone."""
        text = json.dumps(manifest).encode()
        status, answer, _ = self.ask("PUT", f"/v2/{name}/manifests/{tag or digest_of(text)}", text, {"Content-Type": mediaType})
        assert status == 201, answer
        return {"mediaType": mediaType, "digest": digest_of(text), "size": len(text)}

    def url(self, name, tag):
        return f"docker://{self.at()}/{name}:{tag}"

    def push(self, layout, name, tag, check=True):
        words = ["skopeo", "copy", "--all", "--quiet", "--insecure-policy", "--preserve-digests", "--dest-tls-verify=false", f"oci:{layout}:{tag}", self.url(name, tag)]
        done = subprocess.run(words, capture_output=True, text=True)
        assert not check or done.returncode == 0, done.stderr
        return done.returncode == 0

    def delete(self, name, tag):
        run("skopeo", "delete", "--tls-verify=false", self.url(name, tag))

    def pull(self, name, tag, folder):
        """Copies a tag out, all platforms, and answers its files, each with the name that its content has."""
        shutil.rmtree(folder, ignore_errors=True)
        run("skopeo", "copy", "--all", "--insecure-policy", "--preserve-digests", "--src-tls-verify=false", self.url(name, tag), f"dir:{folder}")
        files = {}
        for path in Path(folder).iterdir():
            if path.name != "version":
                files[digest_of(path.read_bytes())] = path.read_bytes()
        return files

    # What lies on the disk.

    def blobs(self):
        return {path.parent.name for path in (self.store / TREE / "blobs").glob("*/*/*/data")}

    def links(self):
        """Every file of the repositories but those of uploads."""
        top = self.store / TREE / "repositories"
        return {str(path.relative_to(top)) for path in top.rglob("*") if path.is_file() and "_uploads" not in path.parts}

    def folders(self):
        """Folders that have a digest as their name."""
        return {str(path) for path in (self.store / TREE).rglob("*") if path.is_dir() and len(path.name) == 64}


def digest_of(data):
    return "sha256:" + hashlib.sha256(data).hexdigest()


class Source:
    """An image layout that is written by hand, to be pushed."""

    def __init__(self, folder):
        self.folder = Path(folder)
        (self.folder / "blobs" / "sha256").mkdir(parents=True)
        (self.folder / "oci-layout").write_text('{"imageLayoutVersion":"1.0.0"}')
        self.entries, self.files = [], {}  # tag -> digest -> bytes

    def put(self, data):
        name = digest_of(data)
        (self.folder / "blobs" / "sha256" / name[7:]).write_bytes(data)
        return {"digest": name, "size": len(data)}

    def image(self, tag=None, layers=3, shared=(), **platform):
        """An image, its entry, and the bytes of all of it."""
        parts = [gzip.compress(os.urandom(2000), mtime=0) for _ in range(layers - len(shared))]
        parts = [*shared, *parts]
        made = [{**self.put(part), "mediaType": LAYER} for part in parts]
        config = json.dumps({"os": "linux", "architecture": "amd64", **platform, "salt": random.random(), "rootfs": {
            "type": "layers", "diff_ids": [digest_of(gzip.decompress(part)) for part in parts]}}).encode()
        text = json.dumps({"schemaVersion": 2, "mediaType": MANIFEST, "config": {**self.put(config), "mediaType": CONFIG}, "layers": made}).encode()
        entry = {**self.put(text), "mediaType": MANIFEST}
        files = {digest_of(one): one for one in (text, config, *parts)}
        self.tag(tag, entry, files)
        return entry, files, parts

    def index(self, tag, *images):
        """An index of images, each as `image` answers it, for one platform each."""
        entries = [{**entry, "platform": {"os": "linux", "architecture": architecture}} for (entry, *_), architecture in zip(images, ("amd64", "arm64"))]
        text = json.dumps({"schemaVersion": 2, "mediaType": INDEX, "manifests": entries}).encode()
        entry, files = {**self.put(text), "mediaType": INDEX}, {digest_of(text): text}
        for _, inner, _ in images:
            files.update(inner)
        self.tag(tag, entry, files)
        return entry, files

    def tag(self, tag, entry, files):
        if tag:
            self.entries = [one for one in self.entries if one["annotations"]["org.opencontainers.image.ref.name"] != tag]
            self.entries.append({**entry, "annotations": {"org.opencontainers.image.ref.name": tag}})
            self.files[tag] = files
            (self.folder / "index.json").write_text(json.dumps({"schemaVersion": 2, "manifests": self.entries}))


def sign(server, name, subject):
    """A signature by subject, pushed by its digest; the digests of its blobs."""
    config, layer = server.upload(name, json.dumps({"of": subject["digest"]}).encode()), server.upload(name, os.urandom(64))
    manifest = {"schemaVersion": 2, "mediaType": MANIFEST, "config": {**config, "mediaType": CONFIG}, "layers": [{**layer, "mediaType": LAYER}],
                "subject": {key: subject[key] for key in ("mediaType", "digest", "size")}}
    return {one["digest"][7:] for one in (config, layer, server.put(name, manifest))}


def collect(server, *words):
    """The registry's own collector."""
    return run("docker-registry", "garbage-collect", *words, server.config())


sys.dont_write_bytecode = True
