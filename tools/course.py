#!/usr/bin/env python3
"""The drawing on the wall: a run of a case, turn by turn, from the proved library.

    course.py serve [--port N] [--no-browser]    a page on 127.0.0.1
    course.py sheet CASE.txt OUT.svg|OUT.html    the whole run on sheets of A3, to hang up; a file for each sheet if it is .svg
    course.py page CASE.txt OUT.html             the page with this run in one file, which needs no server
    course.py tell CASE.txt                      each turn in one sentence

`--language de` tells and draws in German. `make course` builds what it needs and serves the page.
"""

import argparse
import sys
from pathlib import Path

import course_file
import course_run as play
import course_serve
import course_sheet
from course_words import LANGUAGES, words


def read(path: Path) -> str:
    """The text of a case; '-' is standard input."""
    try:
        return (sys.stdin.buffer.read() if str(path) == "-" else path.read_bytes()).decode("utf-8")
    except UnicodeDecodeError:
        raise play.Fault("not-utf8") from None


def tell(asked: argparse.Namespace) -> None:
    run = play.play(read(asked.case))
    print("\n".join(run.sentence(number, words(asked.language)) for number in range(len(run) + 1)))


def sheet(asked: argparse.Namespace) -> None:
    text = read(asked.case)
    course_sheet.write(play.play(text), words(asked.language), course_serve.title(text, asked.case.stem), asked.out)


def page(asked: argparse.Namespace) -> None:
    asked.out.write_text(course_file.page(play.play(read(asked.case)), asked.language), "utf-8")


def serve(asked: argparse.Namespace) -> None:
    course_serve.serve(asked.port, not asked.no_browser)


def port(word: str) -> int:
    if not word.isascii() or not word.isdigit() or not int(word[:9]) <= 65_535:
        raise argparse.ArgumentTypeError(f"{word[:20]} is no port: 0 to 65535")
    return int(word[:9])


def main(given: list[str]) -> int:
    parser = argparse.ArgumentParser(description=__doc__, formatter_class=argparse.RawDescriptionHelpFormatter)
    commands = parser.add_subparsers(dest="command", required=True)
    served = commands.add_parser("serve", help="a page on 127.0.0.1")
    served.add_argument("--port", type=port, default=8642)
    served.add_argument("--no-browser", action="store_true")
    served.set_defaults(do=serve)
    for name, action, about in (("sheet", sheet, "sheets of A3"), ("page", page, "the page in one file"), ("tell", tell, "each turn in one sentence")):
        one = commands.add_parser(name, help=about)
        one.add_argument("case", type=Path)
        if name != "tell":
            one.add_argument("out", type=Path)
        one.add_argument("--language", choices=LANGUAGES, default="en")
        one.set_defaults(do=action)
    asked = parser.parse_args(given)
    try:
        asked.do(asked)
    except play.Fault as fault:
        print(f"course.py: {fault}" if not fault.line else f"course.py: line {fault.line}: {fault}", file=sys.stderr)
        return 1
    except OSError as fault:
        print(f"course.py: {fault}", file=sys.stderr)
        return 1
    return 0


if __name__ == "__main__":
    sys.exit(main(sys.argv[1:]))
