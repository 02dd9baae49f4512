"""Pictures of the page, stored small and compared in blocks: what another version of the browser sets a little otherwise does not count,
a box or an arrow that is missing does. The fonts are those of Debian's fonts-dejavu-core."""

import functools
import io
from pathlib import Path

from PIL import Image, ImageChops, ImageStat

FOLDER = Path(__file__).resolve().parent / "pictures"
# Stored at a quarter of the size, and compared in blocks of two by two of its pixels, which are eight by eight of the page.
SMALLER, BLOCK, COLOURS = 4, 2, 256
# How far a block may be off, of 255, and all blocks in the mean. The page moved by one pixel is 40 and 3, a missing arrow 110, a missing
# box 6 in the mean.
MOST_BLOCK, MOST_MEAN = 60, 4.0


def small(png: bytes) -> Image.Image:
    return Image.open(io.BytesIO(png)).convert("RGB").reduce(SMALLER)


def store(name: str, png: bytes) -> None:
    FOLDER.mkdir(exist_ok=True)
    few = small(png).quantize(COLOURS, Image.Quantize.MAXCOVERAGE, 1, dither=Image.Dither.NONE)
    few.save(FOLDER / f"{name}.png", optimize=True)


def difference(one: Image.Image, other: Image.Image) -> tuple[float, int, tuple[int, int]]:
    """How far blocks are off in the mean and at most, and where that is on the page."""
    channels = ImageChops.difference(one.reduce(BLOCK), other.reduce(BLOCK)).split()
    blocks = functools.reduce(ImageChops.lighter, channels)
    most = blocks.getextrema()[1]
    left, top, *_ = blocks.point(lambda value: 255 if value == most else 0).getbbox() or (0, 0)
    return ImageStat.Stat(blocks).mean[0], most, (left * BLOCK * SMALLER, top * BLOCK * SMALLER)


def fault(name: str, png: bytes) -> str:
    """What differs from the stored picture, in a sentence; nothing if it is the same."""
    path, anew = FOLDER / f"{name}.png", "tests/course/run pictures stores it anew"
    if not path.exists():
        return f"{name}: no picture is stored: {anew}"
    stored, seen = Image.open(path).convert("RGB"), small(png)
    if stored.size != seen.size:
        return f"{name}: the picture has {seen.size}, and the stored one {stored.size}: {anew}"
    mean, most, place = difference(stored, seen)
    if mean > MOST_MEAN or most > MOST_BLOCK:
        return f"{name}: blocks are off by {mean:.2f} in the mean and by up to {most}, at {place}: if that is meant, {anew}"
    return ""
