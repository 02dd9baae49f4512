"""The server behind the page. It listens on 127.0.0.1 and answers this page alone; sizes, times and how much goes on at once are
bounded, and what is not answered is refused with a sentence."""

import json
import subprocess
import sys
import tempfile
import webbrowser
from collections import OrderedDict
from http.server import BaseHTTPRequestHandler, ThreadingHTTPServer
from pathlib import Path
from threading import BoundedSemaphore, Lock
from urllib.parse import parse_qs, urlsplit

import case
import course_boxes
import course_legend
import course_map
import course_run as play
from course_read import MOST_TEXT
from course_svg import DEFINITIONS
from course_words import LANGUAGES, words

PAGE = Path(__file__).resolve().parent / "page"
KINDS = {".css": "text/css", ".js": "text/javascript"}
CASES = {"drawings": play.TOP / "docs" / "course", "stores": play.TOP / "samples"}
OCI = play.TOP / "target" / "bin" / "kullneyra-oci"
LAYOUT_BOXES = 2
# JSON has at most six bytes for one of the text; of a longer request so many bytes are read, and dropped.
MOST_BODY, MOST_PASSED = 6 * MOST_TEXT + 1000, 1 << 26
KEPT_RUNS, AT_ONCE, MOST_CONNECTIONS, MOST_ROWS = 6, 2, 48, 500
SECONDS, PATIENCE = 10, 15
PAPER = (258, 185)  # the room that the boxes have on a printed page
HOSTS = ("127.0.0.1", "localhost")
POLICY = "default-src 'self'; style-src 'self' 'unsafe-inline'; img-src 'self' data:; frame-ancestors 'none'; base-uri 'none'; form-action 'none'"


class Runs:
    """The last runs, by number."""

    def __init__(self):
        self.lock, self.runs, self.next = Lock(), OrderedDict(), 1

    def keep(self, run: play.Run) -> int:
        with self.lock:
            number, self.next = self.next, self.next + 1
            self.runs[number] = run
            while len(self.runs) > KEPT_RUNS:
                self.runs.popitem(last=False)[1].stop()
            return number

    def get(self, number: int) -> play.Run:
        with self.lock:
            if number not in self.runs:
                raise play.Fault("forgotten")
            self.runs.move_to_end(number)
            return self.runs[number]


# ---- what is answered, as values for JSON; the finished file has the same

def samples() -> dict:
    """The cases that come with the course: drawings first, by their names."""
    groups = []
    for group, folder in CASES.items():
        cases = [(path.stem, path.read_text("utf-8")) for path in sorted(folder.glob("*.txt"))]
        groups.append({"group": group, "cases": [{"name": name, "title": title(text, name), "text": text} for name, text in cases]})
    return {"samples": groups, "languages": [(name, words(name).parts["language"]) for name in LANGUAGES]}


def title(text: str, name: str) -> str:
    """The case's first comment, or its name."""
    first = text.partition("\n")[0]
    return first.lstrip("# ").rstrip(". ") if first.startswith("#") else name


def head(run: play.Run, number: int) -> dict:
    """What holds of a run throughout."""
    sizes = [course_boxes.grid(run, across).size() for across in range(1, min(run.workers, course_boxes.MOST_ACROSS) + 1)]
    return {"run": number, "workers": run.workers, "cutoff": run.cutoff, "reached": run.reached, "bound": run.bound, "sizes": sizes,
            "drawn": course_map.drawn(run), "deals": run.deals}


def progress(run: play.Run, first: int, language: str) -> dict:
    """The turns from one on that are known by now, and how the run stands."""
    done = run.done  # asked first: what is done does not grow
    end = len(run)
    return {"names": play.KINDS, "kinds": list(run.turn_kinds[first:end]), "boxes": list(run.turn_boxes[first:end]),
            "asked": list(run.turn_asked[first:end]), "done": done, "total": run.total, "finished": run.finished, "left": run.left,
            "dead": len(run.dead or ()), "freed": run.freed, "fault": run.fault.say(words(language)) if run.fault else ""}


def step(run: play.Run, number: int, across: int, language: str) -> dict:
    """One turn: its sentence, the boxes, for paper too if they stand otherwise there, and how the map looks."""
    said, state = words(language), run.state(number)
    out = {"number": number, "sentence": run.sentence(number, said), "boxes": course_boxes.boxes_svg(run, said, number, across),
           "counts": state.counts, "rounds": run.rounds[number], "map": course_map.map_text(run, said, number)}
    paper = course_boxes.best_across(run, *PAPER)
    if paper != across:
        out["paper"] = course_boxes.boxes_svg(run, said, number, paper)
    if course_map.drawn(run):
        nodes, edges = course_map.node_looks(run, said, number), course_map.edge_looks(run, number)
        return out | {"nodes": [(v, *look) for v, look in nodes.items()], "edges": list(edges.items())}
    return out | {"sums": course_map.sums(run, said, number), "title": said.say("drawing", "too-many", objects=run.n)}


def turns(run: play.Run, first: int, count: int, language: str) -> dict:
    """The kinds and sentences of some turns."""
    end = min(first + min(count, MOST_ROWS), len(run) + 1)
    return {"turns": [(run.kind(number), run.sentence(number, words(language))) for number in range(first, end)]}


def map_of(run: play.Run, wide: float, high: float, language: str) -> dict:
    laid = course_map.lay_out(run, words(language), wide, high)
    return {"svg": course_map.map_svg(run, words(language), laid), "size": laid.size, "looks": course_map.looks(run)}


def legend(language: str) -> dict:
    return {"signs": course_legend.signs(words(language))}


def page_text() -> str:
    return (PAGE / "index.html").read_text("utf-8").replace("<!--definitions-->", DEFINITIONS)


def of_layout(path: str) -> str:
    """An OCI image layout as the text of a case: objects have their kind and tag or short digest behind them, and the order is one
    line, with as many rounds as are sure to finish."""
    if not OCI.exists():
        raise play.Fault("no-oci", program=OCI.relative_to(play.TOP))
    with tempfile.TemporaryDirectory() as folder:
        command = [str(OCI), "catalogue", "--boxes", str(LAYOUT_BOXES), "--turns", "0", "--", path, folder]
        try:
            done = subprocess.run(command, capture_output=True, text=True, timeout=PATIENCE)
        except (subprocess.TimeoutExpired, ValueError):
            raise play.Fault("no-layout") from None
        if done.returncode:
            raise play.Fault("given", text=done.stderr.strip()) if done.stderr.strip() else play.Fault("no-layout")
        one = case.load(Path(folder))
        objects = (Path(folder) / "objects.txt").read_text("utf-8").splitlines()
    tags, lines, names = tags_of(Path(path)), case.show(one).splitlines(), iter(objects)
    lines = [f"{line} # {object_name(next(names), tags)}" if line.startswith("object ") else line for line in lines]
    rounds = min(7 * len(one.references) + 4 * LAYOUT_BOXES + 2, play.MOST_TURNS // LAYOUT_BOXES)
    return "\n".join([*lines, f"seed 1 0 rounds {rounds}"]) + "\n"


def tags_of(layout: Path) -> dict[str, str]:
    """The tags of the index, by digest; names to read, which decide nothing."""
    try:
        entries = json.loads((layout / "index.json").read_text("utf-8"))["manifests"]
        return {one["digest"]: one["annotations"]["org.opencontainers.image.ref.name"] for one in entries
                if "org.opencontainers.image.ref.name" in (one.get("annotations") or {})}
    except (OSError, ValueError, KeyError, TypeError, AttributeError, RecursionError):
        return {}


def object_name(line: str, tags: dict[str, str]) -> str:
    """Of a line of objects.txt: the kind, and the tag or the digest's first digits."""
    _, digest, _, *kind = line.split(" ")
    called = tags.get(digest) or digest.rpartition(":")[2][:7]
    return f"{' '.join(kind)} {called}" if digest != "index.json" else digest


class Server(ThreadingHTTPServer):
    daemon_threads = True

    def __init__(self, port: int):
        super().__init__(("127.0.0.1", port), Handler)
        self.runs, self.running, self.connections = Runs(), BoundedSemaphore(AT_ONCE), BoundedSemaphore(MOST_CONNECTIONS)

    def process_request(self, request, address):
        if self.connections.acquire(timeout=PATIENCE):
            super().process_request(request, address)
        else:
            self.shutdown_request(request)

    def handle_error(self, request, address):
        """Who goes away before the answer is nobody's fault."""
        if not isinstance(sys.exc_info()[1], (ConnectionError, TimeoutError)):
            super().handle_error(request, address)

    def process_request_thread(self, request, address):
        try:
            super().process_request_thread(request, address)
        finally:
            self.connections.release()


class Handler(BaseHTTPRequestHandler):
    timeout = SECONDS

    def log_message(self, *_):
        pass

    def answer(self, data: bytes, kind: str, status: int = 200) -> None:
        self.send_response(status)
        for name, value in (("Content-Type", f"{kind}; charset=utf-8"), ("Content-Length", str(len(data))), ("Cache-Control", "no-store"),
                            ("Content-Security-Policy", POLICY), ("X-Content-Type-Options", "nosniff"), ("Referrer-Policy", "no-referrer")):
            self.send_header(name, value)
        self.end_headers()
        self.wfile.write(data)

    def tell(self, value, status: int = 200) -> None:
        self.answer(json.dumps(value).encode(), "application/json", status)

    def refuse(self, fault: play.Fault, language: str = "en", status: int = 200) -> None:
        self.tell({"fault": {"text": fault.say(words(language)), "key": fault.key, "number": fault.number, "line": fault.line}}, status)

    def local(self) -> bool:
        """Only the page itself may ask: another page of this browser names itself as the origin, or is told by the browser. A link
        that holds a case may be followed from anywhere."""
        port = self.server.server_address[1]
        host, origin = self.headers.get("Host", ""), self.headers.get("Origin")
        linked = (self.command, self.path, self.headers.get("Sec-Fetch-Mode")) == ("GET", "/", "navigate")
        if host not in [f"{name}:{port}" for name in HOSTS]:
            self.refuse(play.Fault("not-local"), status=403)
        elif origin not in (None, f"http://{host}") or self.headers.get("Sec-Fetch-Site", "none") not in ("none", "same-origin") and not linked:
            self.refuse(play.Fault("not-from-here"), status=403)
        else:
            return True
        return False

    def do_GET(self) -> None:
        if not self.local():
            return
        parts = urlsplit(self.path)
        asked = {name: values[-1] for name, values in parse_qs(parts.query).items()}
        language = asked.get("language", "en")
        try:
            self.get(parts.path, asked, language)
        except play.Fault as fault:
            missing = fault.key in ("forgotten", "no-turn", "not-there")
            self.refuse(fault, language, 404 if missing else 200)
        except ValueError:
            self.refuse(play.Fault("not-understood"), language, 404)

    def get(self, path: str, asked: dict[str, str], language: str) -> None:
        kind, _, rest = path.strip("/").partition("/")
        if path == "/":
            self.answer(page_text().encode(), "text/html")
        elif path in FILES:
            self.answer(FILES[path].read_bytes(), KINDS[FILES[path].suffix])
        elif path == "/samples":
            self.tell(samples())
        elif kind == "words" and rest in LANGUAGES:
            self.tell(words(rest).parts)
        elif path == "/legend":
            self.tell(legend(language))
        elif kind == "run":
            self.tell(progress(self.server.runs.get(int(rest)), max(0, int(asked.get("from", "0"))), language))
        elif kind == "step":
            number, turn = map(int, rest.split("/"))
            run = self.server.runs.get(number)
            if not 0 <= turn <= len(run):
                raise play.Fault("no-turn")
            self.tell(step(run, turn, int(asked.get("across", "2")), language))
        elif kind == "turns":
            self.tell(turns(self.server.runs.get(int(rest)), max(0, int(asked.get("from", "0"))), max(0, int(asked.get("count", "0"))), language))
        elif kind == "map":
            run = self.server.runs.get(int(rest))
            if not course_map.drawn(run):
                raise play.Fault("not-there")
            room = [min(max(int(asked.get(side, "600")), 100), 4000) for side in ("wide", "high")]
            self.tell(self.alone(lambda: map_of(run, *room, language)))
        else:
            raise play.Fault("not-there")

    def alone(self, work):
        """Does what takes long, of which not much goes on at once."""
        if not self.server.running.acquire(timeout=PATIENCE):
            raise play.Fault("busy")
        try:
            return work()
        finally:
            self.server.running.release()

    def body(self) -> dict:
        if self.headers.get_content_type() != "application/json":
            raise ValueError
        length = int(self.headers.get("Content-Length", ""))
        if not 0 <= length <= MOST_BODY:
            self.let_pass(length)
            raise play.Fault("too-long", most=f"{MOST_TEXT:,}")
        asked = json.loads(self.rfile.read(length))
        if not isinstance(asked, dict) or not isinstance(asked.get("text"), str) or not isinstance(asked.get("language", "en"), str):
            raise ValueError
        return asked

    def let_pass(self, length: int) -> None:
        """Reads what is not kept, up to a bound: a browser does not read an answer before it has sent everything."""
        left = min(max(length, 0), MOST_PASSED)
        while left > 0 and (part := self.rfile.read(min(left, 1 << 16))):
            left -= len(part)

    def do_POST(self) -> None:
        if not self.local():
            return
        try:
            asked = self.body()
        except play.Fault as fault:
            return self.refuse(fault, status=413)
        except (ValueError, RecursionError, TimeoutError):
            return self.refuse(play.Fault("not-understood"), status=400)
        language = asked.get("language", "en")
        try:
            if self.path == "/run":
                run = self.alone(lambda: play.begin(asked["text"])[0])
                self.tell(head(run, self.server.runs.keep(run)))
            elif self.path == "/layout":
                self.tell({"text": self.alone(lambda: of_layout(asked["text"]))})
            else:
                self.refuse(play.Fault("not-there"), language, 404)
        except play.Fault as fault:
            self.refuse(fault, language)


FILES = {f"/{path.relative_to(PAGE).as_posix()}": path for path in PAGE.rglob("*") if path.suffix in (".css", ".js")}


def serve(port: int, browser: bool) -> None:
    server = Server(port)
    where = f"http://127.0.0.1:{server.server_address[1]}/"
    print(where, flush=True)
    if browser:
        webbrowser.open(where)
    try:
        server.serve_forever()
    except KeyboardInterrupt:
        pass
