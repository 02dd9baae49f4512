#!/usr/bin/env python3
"""Brings the repository's own names in specs/, proofs/ and clauses to today's spelling: snake_case words, CamelCase types.

usage: respell.py [--dry]        at the top of a checkout, once, after the kit's port.py

A word is respelled if it is the repository's own: one with a capital inside (wholeText) and one with a dash (whole-text)
both become whole_text. What a file imports from the kit keeps its spelling there, and so does what Rattle makes (`tie.`).
Two names that would fall together get the ending in TOGETHER. Comments keep their words, but for names in back quotes.
"""
import glob
import os
import re
import sys

W = r"[^\s(){}\[\].;,:@\"«»`|\\]+"
TOKEN = re.compile(r"--(?=[\s-])[^\n]*|\"(?:[^\"\\]|\\.)*\"|" + W)
RT_TOKEN = re.compile(r"//[^\n]*|b?\"(?:[^\"\\]|\\.)*\"|'(?:[^'\\]|\\.)'|" + W)
CAMEL = re.compile(r"[a-z][a-z0-9₀-₉]*(?:[A-Z][A-Za-z0-9₀-₉]*)+[?]?'*\Z")
KEBAB = re.compile(r"[A-Za-zα-ωΑ-Ω]\w*[?]?'*(?:-\w+[?]?'*)+\Z")

# Lemmas that would fall together with the definition that they speak of, and numbers of words with the words.
TOGETHER = {
    a: snake_lemma
    for a, snake_lemma in (
        (a, a.replace("-", "_") + "_lem")
        for a in """all-ended all-marked answer-text black-set cell-word claims-won counts-in digits-at held-half look-turn marks-at
        marks-at-length new-run no-pair no-tally own-run phase-sight phase-turns poll-turn reached-by read-graph refused-row rested-from
        rested-in run-placed runs-from runs-in saved-length start-marks store-pairs stretch-length tally-at tally-in targets-from
        well-formed rounds-of worker-in worker-word all-below two-words pair-at""".split()
    )
} | {a: a[:-1].replace("-", "_") + "_count" for a in "tally-words ring-words worker-words stop-words mark-words work-words".split()}

# A name that the kit's script had respelled already, in one file.
IN_FILE = {("crates/validate/proofs/Reading.antt", "cell_holds"): "cell_holds_lem"}

# Fields of records, which are read behind a dot: these would hide a definition.
FIELDS = {"schedule-fits": "schedule_fitting", "offsets-of": "offset_count", "length-by": "by_length", "kind-of": "kind_known"}


def snake(word):
    """The word in snake case; a single capital at its end, which names a store or a drawing, stays."""
    if "-" in word:
        parts = word.split("-")
        if parts[0][:1].isupper() and len(parts[0]) > 1:
            return "".join(p[:1].upper() + p[1:] for p in parts)
        return "_".join(snake(p) if CAMEL.match(p) else p for p in parts)
    word = re.sub(r"([A-Z])\Z", r"_\1", word)
    return re.sub(r"(?<!_)([A-Z])", lambda m: "_" + m[1].lower(), word)


def own(word):
    return bool(CAMEL.match(word) or KEBAB.match(word))


def spelled(word, field=False):
    return FIELDS.get(word) or (not field and TOGETHER.get(word)) or snake(word)


def imported(text):
    """The names that a file imports from the kit."""
    names = set()
    for path, items in re.findall(r"(?m)^(?:pub |ghost )*use ([\w.'·+-]+?)\.\{([^}]*)\}", text):
        if not (path.startswith("Rattle.") and not path.startswith("Rattle.std")):
            for it in items.split(","):
                names.add(it.split(" as ")[0].strip())
    return names


def turned(text, pattern, comment, names, path=""):
    kit = imported(text)

    def one(m):
        word = m[0]
        if word.startswith(comment):
            return re.sub(r"`[^`\n]*`", lambda q: turned_words(q[0], kit, names), word)
        if word.startswith(('"', 'b"', "'")):
            return word
        if m.start() >= 4 and text[m.start() - 4 : m.start()] == "tie.":
            return word
        if (path, word) in IN_FILE:
            return IN_FILE[path, word]
        field = text[m.start() - 1 : m.start()] == "." and not text[: m.start()].endswith("..")
        if field and text.startswith((".ensures", ".result"), m.end()):
            return snake(word) if word not in kit and word in names else word  # a step of the code, named after its call
        return spelled(word, field) if word not in kit and word in names else word

    return pattern.sub(one, text)


def turned_words(text, kit, names):
    return re.sub(W, lambda m: spelled(m[0]) if m[0] not in kit and m[0] in names else m[0], text)


def write(path, old, new):
    if new != old:
        with open(path, "w", encoding="utf-8") as it:
            it.write(new)


def files(*patterns):
    for p in patterns:
        for f in sorted(glob.glob(p, recursive=True)):
            if "/out/" not in f:
                yield f


def main():
    dry = "--dry" in sys.argv
    antt = list(files("crates/*/specs/**/*.antt", "crates/*/proofs/**/*.antt"))
    names = set()
    for f in antt:
        with open(f, encoding="utf-8") as it:
            text = it.read()
        kit = imported(text)
        for m in TOKEN.finditer(text):
            if own(m[0]) and m[0] not in kit and text[m.start() - 4 : m.start()] != "tie.":
                names.add(m[0])
    if dry:
        used = {}
        for f in antt + list(files("crates/*/src/**/*.rt")):
            with open(f, encoding="utf-8") as it:
                text = it.read()
            words = {m[0] for m in TOKEN.finditer(text)}
            for a in words:
                used.setdefault(a, set()).add(f)
        for a in sorted(names):
            b = spelled(a)
            if a in FIELDS:
                continue
            both = used.get(b, set()) & used.get(a, set())
            if both:
                print("together", a, b, *sorted(both)[:6])
        twice = {}
        for a in names:
            twice.setdefault(spelled(a), set()).add(a)
        for b, those in sorted(twice.items()):
            if len(those) > 1:
                print("twice", b, *sorted(those))
        return
    for f in antt + list(files("crates/*/src/**/*.rt")):
        with open(f, encoding="utf-8") as it:
            text = it.read()
        write(f, text, turned(text, *((TOKEN, "--") if f.endswith(".antt") else (RT_TOKEN, "//")), names, path=f))
    for f in files("crates/*/must-fail/*.edit"):
        with open(f, encoding="utf-8") as it:
            text = it.read()
        write(f, text, "".join(
            turned(line, RT_TOKEN, "//", names) if line.startswith(("old:", "new:")) else line for line in text.splitlines(keepends=True)
        ))
    for f in files("*.md", "docs/**/*.md"):
        with open(f, encoding="utf-8") as it:
            text = it.read()
        write(f, text, re.sub(r"`[^`\n]*`", lambda q: turned_words(q[0], set(), names), text))


if __name__ == "__main__":
    main()
