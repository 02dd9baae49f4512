"""The boxes and what goes between them, drawn from a state. The boxes stand in a grid; arrows run in the lanes between them, so that
none crosses a box."""

from html import escape
from typing import NamedTuple

from course_run import NOBODY, Arrow, Box, Run, State
from course_svg import FILLS, INK, INKS, PALE, Point, middle, rectangle, rounded, svg, text, width
from course_words import Words

WIDE, HIGH = 300, 230
LANE, SMALL_LANE, ROW_GAP, LEAST_GAP = 32, 16, 62, 96
SMALLEST = 14  # letters
CHIP, CHIP_ROWS, MOST_ON_ARROW = 22, 2, 3
EDGE = 2  # so far from the edge of the drawing stands what is on an arrow
MOST_ACROSS = 4


class Grid(NamedTuple):
    """Where the boxes stand."""

    workers: int
    across: int
    gap: float

    @property
    def down(self) -> int:
        return -(-self.workers // self.across)

    @property
    def lane(self) -> float:
        """The room round all boxes; arrows go there only where one goes past a box."""
        return LANE if self.across > 2 or self.down > 2 or self.workers == 1 else SMALL_LANE

    def row(self, b: int) -> int:
        return b // self.across

    def column(self, b: int) -> int:
        return b % self.across

    def place(self, b: int) -> Point:
        return self.lane + self.column(b) * (WIDE + self.gap), self.lane + self.row(b) * (HIGH + ROW_GAP)

    def size(self) -> tuple[float, float]:
        across = min(self.across, self.workers)
        return 2 * self.lane + across * WIDE + (across - 1) * self.gap, 2 * self.lane + self.down * HIGH + (self.down - 1) * ROW_GAP

    def between_rows(self, y: float) -> bool:
        """Whether a reference at this height stands between two rows of boxes."""
        gaps = (self.lane + row * (HIGH + ROW_GAP) for row in range(1, self.down))
        return any(below - ROW_GAP <= y - CHIP / 2 and y + CHIP / 2 <= below for below in gaps)

    def within(self, x: float, wide: float) -> float:
        """The left end of something so wide with its middle at x, moved so that nothing of it is cut off."""
        return min(max(x - wide / 2, EDGE), self.size()[0] - wide - EDGE)

    def over(self, row: int, part: float) -> float:
        """A lane above a row, so far down in its gap."""
        first = self.lane + row * (HIGH + ROW_GAP)
        gap = ROW_GAP if 0 < row < self.down else self.lane
        return first - gap + part * gap if row < self.down else first - ROW_GAP + part * gap

    def before(self, column: int, part: float) -> float:
        """A lane on the left of a column."""
        first = self.lane + column * (WIDE + self.gap)
        gap = self.gap if 0 < column < self.across else self.lane
        return first - gap + part * gap if column < self.across else first - self.gap + part * gap


def grid(run: Run, across: int) -> Grid:
    longest = width(chip_words(run.n - 1, run.n - 1), SMALLEST + 1, True) + 44
    return Grid(run.workers, min(max(across, 1), run.workers, MOST_ACROSS), max(LEAST_GAP, longest))


def best_across(run: Run, wide: float, high: float) -> int:
    """How many boxes side by side make the drawing largest in a room of this shape."""
    sizes = {across: grid(run, across).size() for across in range(1, min(run.workers, MOST_ACROSS) + 1)}
    return max(sizes, key=lambda across: min(wide / sizes[across][0], high / sizes[across][1]))


def route(where: Grid, source: int, target: int, part: float) -> list[Point]:
    """From box to box through the lanes; `part`, between 0 and 1, keeps arrows apart."""
    (ax, ay), (bx, by) = where.place(source), where.place(target)
    ar, ac, br, bc = where.row(source), where.column(source), where.row(target), where.column(target)
    up = 0.12 + 0.5 * part  # of a box's width, where an arrow leaves its upper or lower edge
    side = 0.3 + 0.5 * part  # of its height
    if source == target:
        x = ax + WIDE
        return [(x, ay + 0.75 * HIGH), (x + 30, ay + 0.75 * HIGH), (x + 30, ay + 0.25 * HIGH), (x, ay + 0.25 * HIGH)]
    if ar == br and abs(ac - bc) == 1:
        out, into = (ax + WIDE, bx) if ac < bc else (ax, bx + WIDE)
        return [(out, ay + side * HIGH), (into, ay + side * HIGH)]
    if ar == br:
        y = where.over(ar, part)
        return [(ax + up * WIDE, ay), (ax + up * WIDE, y), (bx + up * WIDE, y), (bx + up * WIDE, by)]
    if ac == bc and abs(ar - br) == 1:
        out, into = (ay + HIGH, by) if ar < br else (ay, by + HIGH)
        return [(ax + up * WIDE, out), (ax + up * WIDE, into)]
    if ac == bc:
        x = where.before(ac, part)
        return [(ax, ay + side * HIGH), (x, ay + side * HIGH), (x, by + side * HIGH), (bx, by + side * HIGH)]
    into = by if ar < br else by + HIGH
    y = where.over(br if ar < br else br + 1, part)
    if abs(ar - br) == 1:
        out = ay + HIGH if ar < br else ay
        return [(ax + up * WIDE, out), (ax + up * WIDE, y), (bx + up * WIDE, y), (bx + up * WIDE, into)]
    x = where.before(ac + 1 if ac < bc else ac, part)
    out = ax + WIDE if ac < bc else ax
    return [(out, ay + side * HIGH), (x, ay + side * HIGH), (x, y), (bx + up * WIDE, y), (bx + up * WIDE, into)]


def chip_words(source: int, target: int) -> str:
    return f"{source} → {target}"


def chip(x: float, y: float, words: str, first: bool = False, size: float = SMALLEST) -> str:
    wide = width(words, size, first) + 14
    return rectangle(x, y, wide, CHIP, "#fff", thick=3 if first else 1, round_by=4) + text(
        x + wide / 2, y + 16.5, words, size, "middle", "bold" if first else "normal")


def chips(run: Run, said: Words, one: Box, x: float, y: float, most: float) -> str:
    """The references that a box carries, in the order in which it follows them, as many as there is room for."""
    out, at, row, left = [], x, 0, one.carried
    if not left:
        return text(x, y + 17, said.say("drawing", "no-references"), SMALLEST, fill=PALE)
    rest = width(said.say("drawing", "more", count=left), SMALLEST) + 4
    for first, end in one.runs:
        for e in range(first, end):
            words = chip_words(run.sources[e], run.targets[e])
            front = not out and one.status in ("look", "claim")
            wide = width(words, SMALLEST, front) + 14
            last = row == CHIP_ROWS - 1
            if at + wide > x + most - (rest if last and left > 1 else 0):
                if last:
                    return "".join(out) + text(at + 2, y + row * (CHIP + 5) + 16.5, said.say("drawing", "more", count=left), SMALLEST)
                at, row = x, row + 1
            out.append(chip(at, y + row * (CHIP + 5), words, front))
            at, left = at + wide + 5, left - 1
    return "".join(out)


def lamp(x: float, y: float, lit: bool) -> str:
    """Lit with rays where the box carries references."""
    rays = "".join(f"M{x + dx * 10:.1f} {y + dy * 10:.1f}L{x + dx * 14:.1f} {y + dy * 14:.1f}" for dx, dy in
                   ((1, 0), (-1, 0), (0, 1), (0, -1), (0.7, 0.7), (-0.7, 0.7), (0.7, -0.7), (-0.7, -0.7)))
    around = f'<path d="{rays}" stroke="{INK}" stroke-width="2"/>' if lit else ""
    return f'{around}<circle cx="{x:.1f}" cy="{y:.1f}" r="7" fill="{"#facc15" if lit else "#fff"}" stroke="{INK}" stroke-width="2"/>'


def token(x: float, y: float, said: Words, black: bool) -> str:
    """A ring with its word, x and y in its middle."""
    words = said.say("drawing", "token")
    wide = width(words, SMALLEST, True) + 22
    fill, ink = (INK, "#fff") if black else ("#fff", INK)
    return (rectangle(x - wide / 2, y - 14, wide, 28, fill, thick=2, round_by=14) + rectangle(x - wide / 2 + 3, y - 11, wide - 6, 22, "none", ink, 1, 11)
            + text(x, y + 5, words, SMALLEST, "middle", "bold", ink))


def cell(x: float, y: float, label: str, words: str, strong: bool) -> str:
    return (rectangle(x, y, 130, 42, "#fff", thick=2.5 if strong else 1, round_by=5)
            + text(x + 65, y + 17, label, SMALLEST, "middle", fill=PALE, most=122)
            + text(x + 65, y + 35, words, SMALLEST + 1, "middle", "bold" if strong else "normal", most=122))


def box(run: Run, said: Words, state: State, b: int, acting: bool, where: Grid) -> str:
    one, (x, y) = state.box(b), where.place(b)
    carried, name = one.carried, said.say("drawing", "box", box=b)
    colour = said.say("drawing", "black" if one.black else "white")
    inner = x + 28
    out = [f'<g class="box" data-box="{b}" role="group" aria-label="{escape(name, quote=True)}">',
           rectangle(x, y, WIDE, HIGH, FILLS[b], thick=5 if acting else 1.5),
           f'<path d="M{x + 16:.1f} {y + 1:.1f}H{x + 8:.1f}Q{x + 1:.1f} {y + 1:.1f} {x + 1:.1f} {y + 9:.1f}V{y + HIGH - 9:.1f}'
           f'Q{x + 1:.1f} {y + HIGH - 1:.1f} {x + 8:.1f} {y + HIGH - 1:.1f}H{x + 16:.1f}Z" fill="url(#fill{b})" stroke="{INK}" stroke-width="1"/>',
           text(inner, y + 29, name, 20, weight="bold")]
    at = inner + width(name, 20, True) + 22
    out.append(lamp(at, y + 22, carried > 0))
    pill = width(colour, SMALLEST) + 16
    if carried:
        out.append(text(at + 18, y + 28, said.say("drawing", "works"), SMALLEST, most=x + WIDE - 14 - pill - at - 18))
    out.append(rectangle(x + WIDE - 10 - pill, y + 15, pill, 22, INK if one.black else "#fff", round_by=4))
    out.append(text(x + WIDE - 10 - pill / 2, y + 31, colour, SMALLEST, "middle", fill="#fff" if one.black else INK))
    out.append(text(inner, y + 53, said.parts["statuses"][one.status], SMALLEST + 2))
    out.append(text(inner, y + 75, said.say("drawing", "numbers", since=one.since, batch=one.batch, carried=carried), SMALLEST, most=WIDE - 38))
    out.append(chips(run, said, one, inner, y + 84, WIDE - 38))
    asker = said.say("drawing", "empty") if one.asker is NOBODY else said.say("drawing", "box", box=one.asker)
    out.append(cell(inner, y + 140, said.say("drawing", "cell"), asker, one.asker is not NOBODY))
    reply = {"denied": said.say("drawing", "said-no"), "given": said.say("drawing", "said-yes", count=carried)}.get(one.status)
    out.append(cell(inner + 134, y + 140, said.say("drawing", "reply"), reply or said.say("drawing", "none"), reply is not None))
    step = (WIDE - 38) / 4
    for place, (key, count) in enumerate(one.tally.items()):
        middle_of = inner + step * (place + 0.5)
        out.append(text(middle_of, y + 201, said.say("drawing", key), SMALLEST, "middle", fill=PALE, most=step - 4))
        out.append(text(middle_of, y + 219, str(count), SMALLEST, "middle", "bold"))
    if state.holder == b:
        held = said.say("drawing", "token-black" if state.token_black else "token-white")
        out.append(f'<g class="token" role="img" aria-label="{escape(held, quote=True)}">{token(x + WIDE - 64, y, said, state.token_black)}</g>')
    return "".join(out) + "</g>"


def on_arrow(run: Run, said: Words, arrow: Arrow, point: Point, token_black: bool, where: Grid) -> str:
    """What stands on an arrow, its middle at this point, or so near that nothing of it is cut off. References stand below each other,
    or side by side between two rows of boxes."""
    x, y = point
    if arrow.kind == "token":
        wide = width(said.say("drawing", "token"), SMALLEST, True) + 22
        return token(where.within(x, wide) + wide / 2, y, said, token_black)
    if arrow.kind != "hand":
        words = said.say("drawing", arrow.kind)
        wide = width(words, SMALLEST, True) + 14
        left = where.within(x, wide)
        return rectangle(left, y - 12, wide, 24, "#fff", thick=1.5 if arrow.fresh else 1, round_by=12) + text(
            left + wide / 2, y + 5, words, SMALLEST, "middle", "bold" if arrow.fresh else "normal")
    references = [e for first, end in arrow.runs for e in range(first, min(end, first + MOST_ON_ARROW))][:MOST_ON_ARROW]
    rows = [chip_words(run.sources[e], run.targets[e]) for e in references]
    left = sum(end - first for first, end in arrow.runs) - len(rows)
    more = said.say("drawing", "more", count=left) if left else ""
    wides, out = [width(words, SMALLEST, True) + 14 for words in rows], []
    if where.between_rows(y):
        at = where.within(x, sum(wides) + 7 * (len(wides) - 1) + (7 + width(more, SMALLEST, True) if more else 0))
        for words, wide in zip(rows, wides):
            out.append(chip(at, y - CHIP / 2, words, arrow.fresh))
            at += wide + 7
        return "".join(out) + (text(at, y + 5, more, SMALLEST, "start", "bold", halo=True) if more else "")
    top = y - (CHIP + 2) * len(rows) / 2
    for row, (words, wide) in enumerate(zip(rows, wides)):
        out.append(chip(where.within(x, wide), top + row * (CHIP + 2), words, arrow.fresh))
    if more:
        out.append(text(where.within(x, max(wides)) + max(wides) / 2, top + len(rows) * (CHIP + 2) + 15, more, SMALLEST, "middle", "bold", halo=True))
    return "".join(out)


def arrow_label(said: Words, arrow: Arrow) -> str:
    count = sum(end - first for first, end in arrow.runs)
    words = said.parts["drawing"][f"arrow-{arrow.kind}"].format(
        **{"from": arrow.source, "to": arrow.target, "references": said.number("sentences", "reference", count)})
    waits = arrow.kind in ("hand", "no") and not arrow.fresh
    return words + (" " + said.say("drawing", "arrow-waiting", to=arrow.target) if waits else "")


def arrows(run: Run, said: Words, number: int, state: State, where: Grid) -> str:
    """All of them: first their lines, then what stands on them."""
    # What stands comes first, so that what is fresh lies above it.
    drawn = sorted(run.arrows(number), key=lambda arrow: arrow.fresh)
    lines, loads = [], []
    for at, arrow in enumerate(drawn):
        points = route(where, arrow.source, arrow.target, (at + 1) / (len(drawn) + 1))
        ink = INKS[arrow.source] if arrow.fresh else PALE
        tip = f"tip{arrow.source}" if arrow.fresh else "tip-small"
        dash = {"no": "7 5", "token": "2 5"}.get(arrow.kind, "") if arrow.fresh else "5 5"
        lines.append(f'<g class="arrow {arrow.kind}{" fresh" if arrow.fresh else ""}" role="img" aria-label="{escape(arrow_label(said, arrow), quote=True)}">'
                     f'<path d="{rounded(points)}" fill="none" stroke="{ink}" stroke-width="{4 if arrow.fresh else 2}"'
                     f'{f""" stroke-dasharray="{dash}" """ if dash else ""} marker-end="url(#{tip})"/></g>')
        loads.append(f'<g class="load{" fresh" if arrow.fresh else ""}" data-arrow="{at}">'
                     f'{on_arrow(run, said, arrow, middle(points), state.token_black, where)}</g>')
    return f'<g class="arrows">{"".join(lines)}</g><g class="loads" aria-hidden="true">{"".join(loads)}</g>'


def boxes(run: Run, said: Words, number: int, across: int) -> str:
    """The inside of the drawing after so many turns."""
    state, where = run.state(number), grid(run, across)
    acting = run.turn_boxes[number - 1] if number else None
    return "".join(box(run, said, state, b, b == acting, where) for b in range(run.workers)) + arrows(run, said, number, state, where)


def boxes_svg(run: Run, said: Words, number: int, across: int, definitions: bool = False) -> str:
    wide, high = grid(run, across).size()
    return svg(wide, high, boxes(run, said, number, across), said.say("drawing", "boxes"), definitions=definitions)
