"""The sentences of the course: `page/words/` has a file for each language, with the same keys; what is wrong with the text of a case
is said in English by case.py, and stands in the part `case` of the others. What a file does not have is said in English."""

import json
from functools import cache
from pathlib import Path

import case

FOLDER = Path(__file__).resolve().parent / "page" / "words"
LANGUAGES = tuple(sorted((path.stem for path in FOLDER.glob("*.json")), key=lambda name: (name != "en", name)))


class Words:
    """The sentences of one language."""

    def __init__(self, language: str):
        self.language = language
        english, own = (json.loads((FOLDER / f"{name}.json").read_text("utf-8")) for name in ("en", language))
        english["case"] = case.SAID
        self.parts = {part: said | own.get(part, {}) if isinstance(said, dict) else own.get(part, said) for part, said in english.items()}

    def say(self, part: str, key: str, **values) -> str:
        return self.parts[part][key].format(**values)

    def number(self, part: str, noun: str, count: int) -> str:
        """So many of them, in words that fit one or many."""
        return self.say(part, f"{noun}-{'one' if count == 1 else 'many'}", count=count)


@cache
def words(language: str = "en") -> Words:
    """The sentences of a language; English where there is none of it."""
    return Words(language if language in LANGUAGES else "en")
