"""The store as a map: objects in layers by hops, laid out by Graphviz' dot, and how each object and reference looks in a state."""

import json
import subprocess
from collections import OrderedDict
from html import escape
from threading import Lock
from typing import NamedTuple, Optional

from course_run import NO_HOPS, Fault, Run
from course_svg import DASHES, FAINT, INKS, PALE, Point, rectangle, svg, text, width
from course_words import Words

# Stores with more objects are summed up and not drawn.
MOST_DRAWN = 400
# Of more references than are routed, dot is told those from line to line, one for each object, and all are drawn behind the objects: each
# line that an arrow passes would take room, and time. What nobody carries is fainter where there are many.
MOST_REFERENCES, MOST_ROUTED, MANY = 2_000, 500, 150
DOT, SECONDS = "dot", 8
LETTERS = 14
# Between layers, round the map, and above it for the layers' names.
LAYER_GAP, MARGIN, HEAD = 40, 10, 26
FEW, MOST_ONWARD = 30, 50
LONGEST_LAYERS = 20  # layers that a sum tells
# The last maps are kept: one more turn, another order or a reload does not change where objects stand.
MOST_LAID, LAID, LAID_LOCK = 16, OrderedDict(), Lock()


class Map(NamedTuple):
    """A layout: the middle of each object, the path of each reference, a heading for each layer, and the size."""

    places: list[tuple[float, float]]
    paths: list[str]
    heads: list[tuple[float, float, str, str]]
    node: tuple[float, float]
    size: tuple[float, float]


def drawn(run: Run) -> bool:
    return run.n <= MOST_DRAWN and len(run.targets) <= MOST_REFERENCES


def layers(run: Run) -> list[list[int]]:
    """Objects by hop count, and those without one last."""
    most = max((hop for hop in run.hops if hop != NO_HOPS), default=0)
    parts: list[list[int]] = [[] for _ in range(most + 2)]
    for v, hop in enumerate(run.hops):
        parts[most + 1 if hop == NO_HOPS else hop].append(v)
    return parts


def labels(run: Run, v: int) -> list[str]:
    """An object's number, and its name in a second line."""
    return [str(v)] + ([run.names[v]] if run.names[v] else [])


def node_size(run: Run, said: Words) -> tuple[float, float]:
    """The room of an object: its labels, and who claimed it."""
    owners = [said.say("drawing", "box", box=run.workers - 1), said.say("drawing", "start"), said.say("drawing", "dead")]
    widest = max([width(words, LETTERS) for words in owners] + [width(words, LETTERS, True) for v in range(run.n) for words in labels(run, v)])
    return widest + 16, 18 * (2 + any(run.names)) + 8


def pad(run: Run) -> float:
    """The room round each object, which arrows go through at its edge only."""
    return 28 if run.n <= FEW else 14


def thread(run: Run) -> float:
    """The room between arrows that run side by side, the less the more there are."""
    return 12 if len(run.targets) <= 40 else 4 if len(run.targets) <= 150 else 0.8


def split(run: Run, node: tuple[float, float], across: bool, wide: float, high: float) -> int:
    """How many objects stand in a line of a layer: all, if letters have their size then, or as many as make the map largest in this
    room."""
    long, deep = (node[1] + pad(run), node[0] + LAYER_GAP) if across else (node[0] + pad(run), node[1] + LAYER_GAP)
    room, depth = (high, wide) if across else (wide, high)
    sizes = [len(part) for part in layers(run)]
    scale = lambda most: min(room / (most * long), depth / (sum(-(-size // most) for size in sizes) * deep))
    longest = max(sizes)
    return longest if scale(longest) >= 1 else max(range(1, longest + 1), key=scale)


def graph(run: Run, node: tuple[float, float], across: bool, most: int) -> str:
    """The text for dot."""
    lines = [part[at:at + most] for part in layers(run) for at in range(0, len(part), most)]
    rank = {v: at for at, line in enumerate(lines) for v in line}
    routed = len(run.targets) <= MOST_ROUTED
    out = [f'digraph {{ rankdir={"LR" if across else "TB"}; splines={"true" if routed else "false"};',
           f"nodesep={thread(run) / 72:.3f}; ranksep={LAYER_GAP / 72:.3f};",
           f'node [shape=box, fixedsize=true, label="", width={(node[0] + pad(run)) / 72:.3f}, height={(node[1] + pad(run)) / 72:.3f}];']
    anchors = [f"line{at}" for at in range(len(lines))]
    out += [f"{name} [style=invis, width=0.01, height=0.01];" for name in anchors]
    out.append(" -> ".join(anchors) + " [style=invis];")
    out += [f"{{ rank=same; {'; '.join([anchor, *(f'o{v}' for v in line)])} }}" for anchor, line in zip(anchors, lines)]
    placed: set[int] = set()
    for e, (a, b) in enumerate(zip(run.sources, run.targets)):
        free = "" if rank[a] < rank[b] else ", constraint=false"
        if routed:
            out.append(f'o{a} -> o{b} [id="{e}"{free}];')
        elif rank[b] == rank[a] + 1 and b not in placed:
            placed.add(b)
            out.append(f"o{a} -> o{b};")
    return "\n".join([*out, "}"])


def dot(text: str) -> dict:
    """What Graphviz answers."""
    try:
        done = subprocess.run([DOT, "-Tjson"], input=text, capture_output=True, text=True, timeout=SECONDS)
    except FileNotFoundError:
        raise Fault("no-dot") from None
    except subprocess.TimeoutExpired:
        raise Fault("map-slow") from None
    if done.returncode:
        raise Fault("broken")
    return json.loads(done.stdout)


def lay_out(run: Run, said: Words, wide: float, high: float) -> Map:
    """Lays the map out for a room of this shape, across and down, and takes what is larger there. Arrows need room too, so shorter
    lines are tried."""
    node, texts = node_size(run, said), []
    for across in (True, False):
        most = split(run, node, across, wide, high)
        for lines in sorted({max(1, round(most * share)) for share in (2 / 3, 1)}):
            texts.append((graph(run, node, across, lines), across))
    asked = DOT, tuple(texts), tuple(run.hops), said.language, wide, high
    with LAID_LOCK:
        if asked in LAID:
            LAID.move_to_end(asked)
            return LAID[asked]
    made = [read_layout(run, said, dot(text), node, across) for text, across in texts]
    best = max(made, key=lambda laid: (min(wide / laid.size[0], high / laid.size[1], 1), -laid.size[0] * laid.size[1]))
    with LAID_LOCK:
        LAID[asked] = best
        while len(LAID) > MOST_LAID:
            LAID.popitem(last=False)
    return best


def read_layout(run: Run, said: Words, laid: dict, node: tuple[float, float], across: bool) -> Map:
    left, bottom, right, top = (float(word) for word in laid["bb"].split(","))
    head_x, head_y = (0, HEAD) if across else (max(width(head_words(run, said, at), LETTERS) for at in range(len(layers(run)))) + 10, 0)
    move = lambda x, y: (x - left + MARGIN + head_x, top - y + MARGIN + head_y)
    places: list[tuple[float, float]] = [(0, 0)] * run.n
    for one in laid["objects"]:
        if one["name"].startswith("o"):
            places[int(one["name"][1:])] = move(*map(float, one["pos"].split(",")))
    paths = [""] * len(run.targets)
    for one in laid.get("edges", ()):
        if "id" in one:
            ends = [room_of(places[side[int(one["id"])]], node) for side in (run.sources, run.targets)]
            paths[int(one["id"])] = spline(one["pos"], move, *ends)
    for e, (a, b) in enumerate(zip(run.sources, run.targets)):
        paths[e] = paths[e] or direct(places[a], places[b], node, across)
    heads = []
    for at, part in enumerate(layers(run)):
        if part:
            middle = sum(end(places[v][0 if across else 1] for v in part) for end in (min, max)) / 2
            heads.append((middle, HEAD - 4, head_words(run, said, at), "middle") if across else (4, middle + 5, head_words(run, said, at), "start"))
    return Map(places, paths, heads, node, (right - left + 2 * MARGIN + head_x, top - bottom + 2 * MARGIN + head_y))


def room_of(place: Point, node: tuple[float, float]) -> tuple[float, float, float, float]:
    """Left, top, right and bottom of an object."""
    return place[0] - node[0] / 2, place[1] - node[1] / 2, place[0] + node[0] / 2, place[1] + node[1] / 2


def spline(pos: str, move, source: tuple, target: tuple) -> str:
    """The path of a reference: dot's Bézier points, drawn on at both ends to the objects, over the room round them."""
    words = pos.split()
    tip = move(*map(float, words.pop(0)[2:].split(",")))
    points = [move(*map(float, word.split(","))) for word in words]
    return "M{:.1f} {:.1f}L{:.1f} {:.1f}C".format(*onward(points[1], points[0], source), *points[0]) + " ".join(
        "{:.1f} {:.1f}".format(*point) for point in points[1:]) + "L{:.1f} {:.1f}".format(*onward(points[-1], tip, target))


def direct(source: Point, target: Point, node: tuple[float, float], across: bool) -> str:
    """A curve between the sides of two objects that face each other, layer by layer; within one line, between the same sides."""
    turn = (lambda point: point) if across else (lambda point: point[::-1])  # so that layers go to the right
    (ax, ay), (bx, by), half = turn(source), turn(target), turn(node)[0] / 2
    if abs(ax - bx) < 2 * half:
        out = LAYER_GAP / 2 + abs(by - ay) / 8
        ay, by = (ay - 8, by + 8) if source == target else (ay, by)
        points = (ax + half, ay), (ax + half + out, ay), (bx + half + out, by), (bx + half, by)
    else:
        side = 1 if ax < bx else -1
        ax, bx, bend = ax + side * half, bx - side * half, side * max(LAYER_GAP, abs(bx - ax) / 3)
        points = (ax, ay), (ax + bend, ay), (bx - bend, by), (bx, by)
    first, *rest = ("{:.1f} {:.1f}".format(*turn(point)) for point in points)
    return f"M{first}C{' '.join(rest)}"


def onward(one: Point, other: Point, room: tuple[float, float, float, float]) -> Point:
    """Where the line from the one point through the other meets the object's edge; the nearest place of the edge, if it passes by."""
    left, top, right, bottom = room
    dx, dy = other[0] - one[0], other[1] - one[1]
    far = max((dx * dx + dy * dy) ** 0.5, 0.01)
    for step in range(MOST_ONWARD):
        x, y = other[0] + dx / far * step, other[1] + dy / far * step
        if left <= x <= right and top <= y <= bottom:
            return x, y
    return min(max(other[0], left), right), min(max(other[1], top), bottom)


def head_words(run: Run, said: Words, hop: int) -> str:
    if hop == len(layers(run)) - 1:
        return said.say("drawing", "no-chain")
    return said.say("drawing", {0: "hop-none", 1: "hop-one"}.get(hop, "hops"), hops=hop)


# How a reference looks: its ink, thickness, dashes and tip. `now` is the one that a turn looks at or follows, `front` the one
# that a box follows first.
EDGES = {"other": (FAINT, 1.2, "", "tip-faint"), "followed": (PALE, 1.6, "", "tip-small")}
FAINTER = ("#d1d5db", 0.9, "", "tip-faint")
for _b in range(16):
    EDGES |= {f"carried{_b}": (INKS[_b], 3, DASHES[_b % 8], f"tip{_b}"), f"front{_b}": (INKS[_b], 4.5, DASHES[_b % 8], f"tip{_b}"),
              f"now{_b}": (INKS[_b], 8, "", f"tip-large{_b}")}


def looks(run: Run) -> dict[str, tuple[str, float, str, str]]:
    """How references look on the map of this run."""
    return EDGES | {"other": FAINTER} if len(run.targets) > MANY else EDGES


def edge_looks(run: Run, number: int) -> dict[int, str]:
    """How the references look after so many turns that do not look as at first."""
    out = {e: "followed" for e in run.followed(number)}
    for b, one in enumerate(run.state(number).boxes):
        for place, (first, end) in enumerate(one.runs):
            out |= {e: f"carried{b}" for e in range(first, end)}
            if not place:
                out[first] = f"front{b}"
    if (now := run.looked(number)) is not None:
        out[now] = f"now{run.turn_boxes[number - 1]}"
    return out


def node_looks(run: Run, said: Words, number: int) -> dict[int, tuple[str, str]]:
    """The fill of each object that is marked, or dead at the end, and who claimed it."""
    out, starts = {}, set(run.starts)
    for v, mark in enumerate(run.state(number).marks):
        if v in starts:
            out[v] = ("#fff", said.say("drawing", "start"))
        elif mark:
            out[v] = (f"url(#fill{mark - 1})", said.say("drawing", "box", box=mark - 1))
    if run.dead is not None and number == len(run):
        out |= {v: ("url(#dead)", said.say("drawing", "dead")) for v in run.dead}
    return out


def edge_shape(path: str, e: int, look: tuple[str, float, str, str]) -> str:
    ink, thick, dash, tip = look
    return (f'<path data-e="{e}" d="{path}" fill="none" stroke="{ink}" stroke-width="{thick:g}"{f""" stroke-dasharray="{dash}" """ if dash else ""} '
            f'marker-end="url(#{tip})"/>')


def node_shape(run: Run, said: Words, laid: Map, v: int, look: Optional[tuple[str, str]]) -> str:
    (x, y), (wide, high) = laid.places[v], laid.node
    fill, owner = look or ("#fff", "")
    start = v in run.starts
    name = escape(" ".join([said.say("drawing", "object", object=v), *labels(run, v)[1:]]), quote=True)
    out = [f'<g data-v="{v}" role="group" aria-label="{name}">',
           rectangle(x - wide / 2, y - high / 2, wide, high, fill, thick=4 if start else 1.2, round_by=12)]
    for row, words in enumerate(labels(run, v)):
        out.append(text(x, y - high / 2 + 18 + 18 * row, words, LETTERS, "middle", "normal" if row else "bold", most=wide - 8, halo=True))
    out.append(text(x, y + high / 2 - 7, owner, LETTERS, "middle", most=wide - 6, halo=True))
    return "".join(out) + "</g>"


def map_inner(run: Run, said: Words, laid: Map, number: Optional[int]) -> str:
    """The inside of the map, after so many turns, or without what a state tells. What looks strong lies above."""
    edges, ways = {} if number is None else edge_looks(run, number), looks(run)
    nodes = {} if number is None else node_looks(run, said, number)
    order = sorted(range(len(laid.paths)), key=lambda e: ways[edges.get(e, "other")][1])
    out = [text(x, y, words, LETTERS, anchor, fill=PALE) for x, y, words, anchor in laid.heads]
    out += [edge_shape(laid.paths[e], e, ways[edges.get(e, "other")]) for e in order]
    return "".join(out + [node_shape(run, said, laid, v, nodes.get(v)) for v in range(run.n)])


def map_svg(run: Run, said: Words, laid: Map, number: Optional[int] = None, definitions: bool = False) -> str:
    return svg(*laid.size, map_inner(run, said, laid, number), said.say("drawing", "map"), definitions=definitions)


def map_text(run: Run, said: Words, number: int) -> str:
    """The map in one sentence."""
    state = run.state(number)
    return said.say("drawing", "map-text", objects=run.n, references=len(run.targets), marked=state.counts["live"],
                    carried=sum(one.carried for one in state.boxes))


def sums(run: Run, said: Words, number: int) -> list[tuple[str, int]]:
    """A store that is too large to be drawn, in numbers."""
    marks = run.state(number).marks
    rows = [(said.say("drawing", "sum-marked"), run.n - marks.count(0)), (said.say("drawing", "sum-unmarked"), marks.count(0))]
    rows += [(said.say("drawing", "sum-box", box=b), marks.count(b + 1) - (0 if b else len(set(run.starts)))) for b in range(run.workers)]
    parts = layers(run)
    for hop, part in list(enumerate(parts[:-1]))[:LONGEST_LAYERS]:
        rows.append((said.say("drawing", "sum-hops" if hop else "sum-starts", hops=hop), len(part)))
    return rows + [(said.say("drawing", "sum-no-chain"), len(parts[-1]))]
