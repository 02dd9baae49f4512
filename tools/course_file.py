"""The page with one run in a single file, which needs no server: what the server would answer stands in it."""

import json
import re

import course_boxes
import course_map
import course_run as play
import course_serve as serve
from course_words import words

# The rooms that the map of a file is laid out for: beside the boxes, and below them where the page is narrow.
MAP_ROOMS = ((560, 620), (368, 378))
MOST_TURNS = 300
# Answers what the server would.
ANSWER = """
window.STORED = JSON.parse(document.getElementById("stored").textContent);
window.STORED.answer = async (path) => {
  const [, kind, , turn] = path.split(/[/?]/), asked = new URLSearchParams(path.split("?")[1]), held = window.STORED;
  if (kind === "step")
    return { ...held.steps[Number(turn)], boxes: held.boxes[asked.get("across")][Number(turn)], paper: held.boxes[held.paper][Number(turn)] };
  if (kind === "turns") return { turns: held.turns.slice(Number(asked.get("from")), Number(asked.get("from")) + Number(asked.get("count"))) };
  if (kind === "map") return held.maps[Number(asked.get("wide")) < 450 ? 1 : 0];
  if (kind === "run" && asked.has("from")) return held.progress;
  return held[kind];
};
"""


def stored(run: play.Run, language: str) -> dict:
    """Every answer that the page asks for."""
    said, numbers = words(language), range(len(run) + 1)
    across = range(1, min(run.workers, course_boxes.MOST_ACROSS) + 1)
    paper = course_boxes.best_across(run, *serve.PAPER)
    steps = [serve.step(run, number, paper, language) for number in numbers]
    for one in steps:
        del one["boxes"]
    return {
        "language": language, "words": {part: held for part, held in said.parts.items() if part != "case"},
        "run": serve.head(run, 1), "progress": serve.progress(run, 0, language), "steps": steps, "paper": paper,
        "boxes": {at: [course_boxes.boxes_svg(run, said, number, at) for number in numbers] for at in across},
        "turns": [(run.kind(number), run.sentence(number, said)) for number in numbers], "legend": serve.legend(language),
        "maps": [serve.map_of(run, *room, language) for room in MAP_ROOMS] if course_map.drawn(run) else [],
    }


def page(run: play.Run, language: str) -> str:
    """The whole file."""
    if len(run) > MOST_TURNS:
        raise play.Fault("too-many-turns", turns=len(run), most=MOST_TURNS)
    text = serve.page_text()
    held = json.dumps(stored(run, language), ensure_ascii=False, separators=(",", ":")).replace("<", "\\u003c")
    text = text.replace('<link rel="stylesheet" href="/page.css">', f"<style>\n{(serve.PAGE / 'page.css').read_text('utf-8')}</style>")
    names = re.findall(r'<script src="/(js/\w+\.js)"></script>\n', text)
    scripts = "".join(f"<script>\n{(serve.PAGE / name).read_text('utf-8')}</script>\n" for name in names)
    before, _, behind = re.sub(r'<script src="/js/\w+\.js"></script>\n', "", text).rpartition("</body>")
    return f'{before}<script id="stored" type="application/json">{held}</script>\n<script>{ANSWER}</script>\n{scripts}</body>{behind}'
