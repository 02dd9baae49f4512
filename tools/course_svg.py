"""Letters, shapes and colours of the course's drawings, as SVG. Colour never tells anything that a word, a number or a pattern does
not tell too."""

from html import escape
from typing import Optional

Point = tuple[float, float]

INK, PALE, FAINT = "#111827", "#4b5563", "#9ca3af"
FONT = "DejaVu Sans, Verdana, Helvetica, Arial, sans-serif"
# Light fills that a black letter can be read on, strong inks for arrows, and dashes; box b has those of its number.
FILLS = ("#bfdbfe", "#fde68a", "#bbf7d0", "#fbcfe8", "#ddd6fe", "#fed7aa", "#a5f3fc", "#e5e7eb",
         "#93c5fd", "#fcd34d", "#86efac", "#f9a8d4", "#c4b5fd", "#fdba74", "#67e8f9", "#d1d5db")
INKS = ("#1d4ed8", "#92400e", "#166534", "#be185d", "#6d28d9", "#c2410c", "#0e7490", "#374151",
        "#1e3a8a", "#713f12", "#14532d", "#831843", "#4c1d95", "#7c2d12", "#164e63", "#000000")
DASHES = ("", "12 4", "4 4", "14 4 3 4", "20 5", "8 3 2 3 2 3", "2 4", "16 3 6 3")
# What a pattern is made of, in a square of 10; a second set of eight has heavier lines.
PATTERNS = ("", "M-1 1L1 -1M0 10L10 0M9 11L11 9", "M3 5h4M5 3v4", "M5 0V10", "M-1 9L1 11M0 0L10 10M9 -1L11 1", "M0 5H10", "M5 0V10M0 5H10",
            "M0 10L10 0M0 0L10 10")
WIDTH_GROUPS = {  # widths of DejaVu Sans in thousandths of the letters' size, by groups of letters
    275: "'ijl", 295: "IJ", 318: " ,.·", 337: "/:;\\|", 352: "f", 361: "-", 390: "()[]t!", 411: "r", 460: '"', 500: "*_`", 525: "sz?",
    550: "cL", 579: "Fk", 592: "vxy", 612: "PTYoöaäe", 636: "Eßhnuübdgpq$0123456789{}S", 656: "K", 686: "AVÄXZBR", 700: "C", 735: "UÜ",
    752: "NH", 775: "DG", 787: "&OQÖ", 818: "w", 838: "#+<=>^~→×−", 863: "M", 974: "%m", 1000: "@…W",
}
WIDTHS = {letter: width for width, letters in WIDTH_GROUPS.items() for letter in letters}


def width(words: str, size: float, bold: bool = False) -> float:
    """How wide these words are; other fonts are narrower."""
    return sum(WIDTHS.get(letter, 700) for letter in words) / 1000 * size * (1.1 if bold else 1)


def wrapped(words: str, size: float, most: float, bold: bool = False) -> list[str]:
    """The words in lines that are not wider."""
    out = [""]
    for word in words.split(" "):
        longer = f"{out[-1]} {word}" if out[-1] else word
        if out[-1] and width(longer, size, bold) > most:
            out.append(word)
        else:
            out[-1] = longer
    return out


def text(x: float, y: float, words: str, size: float = 14, anchor: str = "start", weight: str = "normal", fill: str = INK, most: Optional[float] = None,
         halo: bool = False) -> str:
    """Words; ones that are wider than `most` are set closer."""
    fit = f' textLength="{most:.0f}" lengthAdjust="spacingAndGlyphs"' if most and width(words, size, weight == "bold") > most else ""
    around = ' paint-order="stroke" stroke="#fff" stroke-width="4" stroke-linejoin="round"' if halo else ""
    where = "" if anchor == "start" else f' text-anchor="{anchor}"'
    bold = "" if weight == "normal" else f' font-weight="{weight}"'
    return f'<text x="{x:.1f}" y="{y:.1f}" font-size="{size:g}"{where}{bold} fill="{fill}"{fit}{around}>{escape(words)}</text>'


def rectangle(x: float, y: float, wide: float, high: float, fill: str, stroke: str = INK, thick: float = 1.5, round_by: float = 8) -> str:
    return (f'<rect x="{x:.1f}" y="{y:.1f}" width="{wide:.1f}" height="{high:.1f}" rx="{round_by:g}" fill="{fill}" stroke="{stroke}" '
            f'stroke-width="{thick:g}"/>')


def rounded(points: list[Point], by: float = 12) -> str:
    """A path through these points, its corners rounded."""
    out = [f"M{points[0][0]:.1f} {points[0][1]:.1f}"]
    for (x0, y0), (x, y), (x1, y1) in zip(points, points[1:], points[2:]):
        before, behind = abs(x - x0) + abs(y - y0), abs(x1 - x) + abs(y1 - y)
        cut = min(by, before / 2, behind / 2)
        ax, ay = x + (x0 - x) / (before or 1) * cut, y + (y0 - y) / (before or 1) * cut
        bx, by_ = x + (x1 - x) / (behind or 1) * cut, y + (y1 - y) / (behind or 1) * cut
        out.append(f"L{ax:.1f} {ay:.1f}Q{x:.1f} {y:.1f} {bx:.1f} {by_:.1f}")
    out.append(f"L{points[-1][0]:.1f} {points[-1][1]:.1f}")
    return "".join(out)


def middle(points: list[Point]) -> Point:
    """The point half way along."""
    lengths = [abs(x1 - x0) + abs(y1 - y0) for (x0, y0), (x1, y1) in zip(points, points[1:])]
    left = sum(lengths) / 2
    for length, (x0, y0), (x1, y1) in zip(lengths, points, points[1:]):
        if left <= length and length:
            return x0 + (x1 - x0) * left / length, y0 + (y1 - y0) * left / length
        left -= length
    return points[-1]


def marker(name: str, fill: str, size: float) -> str:
    return (f'<marker id="{name}" viewBox="0 0 10 10" refX="9" refY="5" markerWidth="{size:g}" markerHeight="{size:g}" markerUnits="userSpaceOnUse" '
            f'orient="auto-start-reverse"><path d="M0 0L10 5L0 10z" fill="{fill}"/></marker>')


def pattern(b: int) -> str:
    lines = f'<path d="{PATTERNS[b % 8]}" stroke="{INKS[b]}" stroke-width="{1.4 if b < 8 else 3}" fill="none"/>' if b % 8 or b >= 8 else ""
    if b == 8:
        lines = f'<circle cx="5" cy="5" r="2" fill="{INKS[b]}"/>'
    return f'<pattern id="fill{b}" width="10" height="10" patternUnits="userSpaceOnUse"><rect width="10" height="10" fill="{FILLS[b]}"/>{lines}</pattern>'


DEFINITIONS = (
    "<defs>" + marker("tip", INK, 13) + marker("tip-small", PALE, 10) + marker("tip-faint", FAINT, 9)
    + "".join(marker(f"tip{b}", INKS[b], 14) + marker(f"tip-large{b}", INKS[b], 22) for b in range(16)) + "".join(pattern(b) for b in range(16))
    + '<pattern id="dead" width="8" height="8" patternUnits="userSpaceOnUse" patternTransform="rotate(45)"><rect width="8" height="8" fill="#fff"/>'
    f'<path d="M0 0V8" stroke="{FAINT}" stroke-width="3"/></pattern></defs>'
)


def svg(wide: float, high: float, inner: str, label: str, size: str = "", definitions: bool = True) -> str:
    """A drawing whose words a screen reader gets; `size` has its attributes for width and height, if they are told."""
    return (f'<svg xmlns="http://www.w3.org/2000/svg" viewBox="0 0 {wide:.0f} {high:.0f}"{size} font-family="{FONT}" role="group" '
            f'aria-label="{escape(label, quote=True)}">{DEFINITIONS if definitions else ""}{inner}</svg>')
