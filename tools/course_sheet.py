"""The whole run on sheets of A3, to hang up: a drawing for each turn that changes something, with its sentence above it, and the
store at the end. Lengths are millimetres."""

from html import escape
from pathlib import Path
from typing import NamedTuple, Optional

import course_boxes
import course_map
import course_run as play
from course_svg import svg, text, wrapped
from course_words import Words

WIDE, HIGH, EDGE = 420, 297, 10
HEAD, GUTTER, ROW_GAP, MOST_GAP, LINE, LETTERS = 15, 3, 4, 16, 4.2, 3.2
LEAST_LETTERS = 2.5
MOST_SPAN, MOST_TURNS = 3, 1000
LEAST_SCALE, MOST_SCALE, STEP = LEAST_LETTERS / course_boxes.SMALLEST, 0.5, 0.004


class Panel(NamedTuple):
    """A turn that is drawn, the turns before it that change nothing, and those behind the last one."""

    number: int
    folded: tuple[int, ...]
    behind: tuple[int, ...] = ()


class Way(NamedTuple):
    """How panels stand on sheets: boxes side by side in each, millimetres for a unit, columns, the panels of each row of each sheet,
    where None is the store, the store's map, and how many columns it takes. A map whose letters would be too small there has a
    sheet of its own, and takes none."""

    across: int
    scale: float
    columns: int
    sheets: list[list[list[Optional[Panel]]]]
    laid: Optional[course_map.Map]
    span: int

    def count(self) -> int:
        return len(self.sheets) + self.alone()

    def alone(self) -> bool:
        return self.laid is not None and not self.span


def panels(run: play.Run) -> list[Panel]:
    out, folded = [Panel(0, ())], []
    for number in range(1, len(run) + 1):
        if run.kind(number) == "nothing":
            folded.append(number)
        else:
            out.append(Panel(number, tuple(folded)))
            folded = []
    return out[:-1] + [out[-1]._replace(behind=tuple(folded))]


def fold_words(run: play.Run, said: Words, numbers: tuple[int, ...]) -> list[str]:
    """One line for turns that change nothing."""
    if not numbers:
        return []
    if len(numbers) == 1:
        return [said.say("sheet", "folded-one", first=numbers[0], sentence=run.told(numbers[0], said))]
    return [said.say("sheet", "folded-many", first=numbers[0], last=numbers[-1])]


def lines(run: play.Run, said: Words, panel: Optional[Panel], wide: float) -> list[tuple[str, bool]]:
    """The words above a drawing, in whole sentences, and whether they are bold."""
    if panel is None:
        return [(line, True) for line in wrapped(said.say("sheet", "store"), LETTERS, wide, True)]
    folded = [line for words in fold_words(run, said, panel.folded + panel.behind) for line in wrapped(words, LETTERS, wide)]
    return [(line, False) for line in folded] + [(line, True) for line in wrapped(run.sentence(panel.number, said), LETTERS, wide, True)]


def way(run: play.Run, said: Words, across: int, scale: float, laid: Optional[course_map.Map], span: int) -> Optional[Way]:
    """The sheets at this scale, each filled row by row."""
    wide, high = (side * scale for side in course_boxes.grid(run, across).size())
    columns = int((WIDE - 2 * EDGE + GUTTER) // (wide + GUTTER))
    if columns < max(span, 1):
        return None
    room, drawn = HIGH - 2 * EDGE - HEAD, panels(run)
    rows: list[list[Optional[Panel]]] = [list(drawn[at:at + columns]) for at in range(0, len(drawn), columns)]
    if span:
        rows += [[]] if len(rows[-1]) + span > columns else []
        rows[-1].append(None)
    sheets: list[list[list[Optional[Panel]]]] = [[]]
    left = room
    for row in rows:
        tall = max(len(lines(run, said, panel, column_width(columns))) for panel in row) * LINE + high + ROW_GAP
        if tall > left + ROW_GAP and sheets[-1]:
            sheets.append([])
            left = room
        if tall > room + ROW_GAP:
            return None
        sheets[-1].append(row)
        left -= tall
    return Way(across, scale, columns, sheets, laid, span)


def column_width(columns: int) -> float:
    return (WIDE - 2 * EDGE + GUTTER) / columns - GUTTER


def best_way(run: play.Run, said: Words) -> Way:
    """As few sheets as letters of the least size need, and on them as large as can be."""
    best = None
    for across in range(1, min(run.workers, course_boxes.MOST_ACROSS) + 1):
        laid, span = store_map(run, said, *course_boxes.grid(run, across).size())
        scale = LEAST_SCALE
        while scale <= MOST_SCALE and (one := way(run, said, across, scale, laid, span)):
            if best is None or (one.count(), -one.scale) < (best.count(), -best.scale):
                best = one
            if one.count() > best.count():
                break
            scale += STEP
    if best is None:
        raise play.Fault("broken")
    return best


def store_map(run: play.Run, said: Words, wide: float, high: float) -> tuple[Optional[course_map.Map], int]:
    """The map for one or more panels of this size, and for how many; or for a sheet of its own, and 0."""
    if not course_map.drawn(run):
        return None, 0
    for span in range(1, MOST_SPAN + 1):
        laid = course_map.lay_out(run, said, wide * span, high)
        if laid.size[0] <= wide * span and laid.size[1] <= high:
            return laid, span
    return course_map.lay_out(run, said, WIDE, HIGH - HEAD), 0


def sheets(run: play.Run, said: Words, title: str) -> list[str]:
    """Each sheet as an SVG of A3."""
    if len(run) > MOST_TURNS:
        raise play.Fault("too-many-turns", turns=len(run), most=MOST_TURNS)
    chosen = best_way(run, said)
    pages = [sheet_inner(run, said, chosen, rows) for rows in chosen.sheets]
    if chosen.alone():
        pages.append(text(EDGE, EDGE + HEAD + 3, said.say("sheet", "store"), LETTERS, weight="bold") + placed_map(
            run, said, chosen.laid, EDGE, EDGE + HEAD + LINE, WIDE - 2 * EDGE, HIGH - 2 * EDGE - HEAD - LINE))
    return [svg(WIDE, HIGH, f'<rect width="{WIDE}" height="{HIGH}" fill="#fff"/>' + head(run, said, title, at, len(pages)) + page, title,
                f' width="{WIDE}mm" height="{HIGH}mm"') for at, page in enumerate(pages, 1)]


def head(run: play.Run, said: Words, title: str, page: int, pages: int) -> str:
    counts = ", ".join(f"{said.say('counts', name)} {count}" for name, count in run.state(len(run)).counts.items())
    facts = said.say("sheet", "facts", boxes=said.number("sheet", "boxes", run.workers), batch=run.batch, cutoff=run.cutoff,
                     ended=said.say("sheet", "finished" if run.finished else "unfinished"), turns=said.number("sheet", "turns", len(run)))
    return (text(EDGE, EDGE + 4.5, title, 5.2, weight="bold") + text(EDGE, EDGE + 10.5, f"{facts} {counts}", LETTERS)
            + text(WIDE - EDGE, EDGE + 4.5, said.say("sheet", "page", page=page, pages=pages), LETTERS, "end"))


def sheet_inner(run: play.Run, said: Words, chosen: Way, rows: list) -> str:
    wide, high = (side * chosen.scale for side in course_boxes.grid(run, chosen.across).size())
    column, out, y = column_width(chosen.columns), [], EDGE + HEAD
    above_all = [[lines(run, said, panel, column) for panel in row] for row in rows]
    used = sum(max(map(len, written)) * LINE + high for written in above_all)
    gap = min((HIGH - 2 * EDGE - HEAD - used) / len(rows), MOST_GAP)
    for row, written in zip(rows, above_all):
        drawn_at = y + max(map(len, written)) * LINE
        for place, (panel, above) in enumerate(zip(row, written)):
            x = EDGE + place * (column + GUTTER)
            for at, (line, bold) in enumerate(above):
                out.append(text(x, drawn_at - (len(above) - at) * LINE + 3, line, LETTERS, weight="bold" if bold else "normal", most=column))
            if panel is None:
                out.append(placed_map(run, said, chosen.laid, x, drawn_at, wide * chosen.span, high))
            else:
                inner = course_boxes.boxes(run, said, panel.number, chosen.across)
                out.append(f'<g transform="translate({x:.2f} {drawn_at:.2f}) scale({chosen.scale:.4f})">{inner}</g>')
        y = drawn_at + high + gap
    return "".join(out)


def placed_map(run: play.Run, said: Words, laid: course_map.Map, x: float, y: float, wide: float, high: float) -> str:
    """The store at the end, as large as there is room."""
    scale = min(wide / laid.size[0], high / laid.size[1], MOST_SCALE)
    inner = course_map.map_inner(run, said, laid, len(run))
    return f'<g class="map" transform="translate({x:.2f} {y:.2f}) scale({scale:.4f})">{inner}</g><!--map-->'


def html(pages: list[str], said: Words, title: str) -> str:
    """One file, a page of A3 for each sheet."""
    style = ("@page{size:A3 landscape;margin:0}body{margin:0;background:#fff}svg{display:block;width:420mm;height:297mm;max-width:100%}"
             "@media screen{svg{height:auto;border-bottom:1px solid #9ca3af}}@media print{svg+svg{break-before:page}}")
    return (f'<!doctype html>\n<html lang="{said.language}"><head><meta charset="utf-8"><title>{escape(title)}</title><style>{style}</style></head>\n'
            "<body>" + "\n".join(pages) + "</body></html>\n")


def files(run: play.Run, said: Words, title: str, out: Path) -> dict[Path, str]:
    """What is written: one page of HTML, or an SVG for each sheet, numbered if there are several."""
    pages = sheets(run, said, title)
    if out.suffix == ".html":
        return {out: html(pages, said, title)}
    if out.suffix != ".svg":
        raise play.Fault("no-sheet", name=out)
    names = [out] if len(pages) == 1 else [out.with_name(f"{out.stem}-{at}.svg") for at in range(1, len(pages) + 1)]
    return {name: page + "\n" for name, page in zip(names, pages)}


def write(run: play.Run, said: Words, title: str, out: Path) -> None:
    for path, data in files(run, said, title, out).items():
        path.write_text(data, "utf-8")
