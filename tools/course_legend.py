"""What the signs mean: a small drawing for each, with the shapes of the drawings themselves."""

from course_boxes import chip, lamp, token
from course_map import EDGES
from course_svg import INK, INKS, FILLS, PALE, rectangle, svg, text
from course_words import Words

WIDE, HIGH = 110, 34


def arrow(ink: str, thick: float, dash: str, tip: str) -> str:
    dashes = f' stroke-dasharray="{dash}"' if dash else ""
    return f'<path d="M8 17H96" fill="none" stroke="{ink}" stroke-width="{thick:g}"{dashes} marker-end="url(#{tip})"/>'


def label(words: str) -> str:
    return rectangle(34, 5, 42, 24, "#fff", round_by=12) + text(55, 22, words, 14, "middle", "bold", most=36)


def node(fill: str, words: str, thick: float = 1.2) -> str:
    return rectangle(25, 2, 60, 30, fill, thick=thick, round_by=10) + text(55, 22, words, 14, "middle", most=52, halo=True)


def signs(said: Words) -> list[tuple[str, str]]:
    """The key of each sentence, and its drawing."""
    drawing = {
        "legend-box": rectangle(22, 3, 66, 28, FILLS[0], thick=5) + text(55, 22, said.say("drawing", "box", box=0), 14, "middle", "bold"),
        "legend-lamp": lamp(55, 17, True),
        "legend-chip": chip(20, 6, "0 → 2", True),
        "legend-token": token(55, 17, said, False),
        "legend-ask": arrow(INKS[1], 4, "", "tip1") + label(said.say("drawing", "ask")),
        "legend-hand": arrow(INKS[0], 4, "", "tip0") + chip(25, 6, "1 → 3", True),
        "legend-no": arrow(INKS[0], 4, "7 5", "tip0") + label(said.say("drawing", "no")),
        "legend-pass": arrow(INKS[0], 4, "2 5", "tip0") + token(52, 17, said, False),
        "legend-waiting": arrow(PALE, 2, "5 5", "tip-small"),
        "legend-map-start": node("#fff", said.say("drawing", "start"), 4),
        "legend-map-claimed": node("url(#fill1)", said.say("drawing", "box", box=1)),
        "legend-map-unmarked": node("#fff", ""),
        "legend-map-dead": node("url(#dead)", said.say("drawing", "dead")),
        "legend-map-carried": arrow(*EDGES["carried1"]),
        "legend-map-now": arrow(*EDGES["now0"]),
        "legend-map-followed": arrow(*EDGES["followed"]),
        "legend-map-other": arrow(*EDGES["other"]),
    }
    return [(key, svg(WIDE, HIGH, inner, said.say("page", key), definitions=False)) for key, inner in drawing.items()]
