"""Lines of at most 120 characters."""

import textwrap
from typing import List, Optional

WIDTH = 120


def wrapped(text: str, first: str, rest: str, last: str = "") -> List[str]:
    """A text in lines, each with what begins it and room for what ends it."""
    wrap = textwrap.TextWrapper(WIDTH - len(last), initial_indent=first, subsequent_indent=rest)
    wrap.break_on_hyphens = wrap.break_long_words = False
    return wrap.wrap(text)


def filled(head: str, parts: List[str], tail: str, indent: Optional[str] = None) -> str:
    """As many parts to a line as fit, under the first or so far in."""
    indent = " " * len(head) if indent is None else indent
    lines, line = [], head
    for number, part in enumerate(parts, 1):
        part += tail if number == len(parts) else ","
        if number > 1 and len(line.expandtabs(4)) + 1 + len(part) > WIDTH:
            lines.append(line)
            line = indent + part
        else:
            line += part if number == 1 else f" {part}"
    return "\n".join([*lines, line])
