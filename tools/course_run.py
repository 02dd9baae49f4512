"""A case run turn by turn by the proved library, as states and sentences. Nothing here knows the rules of a turn: what a
sentence tells is read off the state before and the state after, which the library saved."""

import json
import signal
import subprocess
import sys
import tempfile
from array import array
from collections import OrderedDict
from pathlib import Path
from threading import Lock, Thread
from typing import Iterator, NamedTuple, Optional

import case
from course_read import MOST_TEXT
from course_words import Words, words

TOP = case.TOP
READ = Path(__file__).resolve().parent / "course_read.py"
STEPS = TOP / "target" / "course" / "steps"
# Bounds of a run: turns, saved words that the library is given over all turns, changed words that are kept, words of
# whole states that are kept, and seconds; and seconds of reading the text of a case.
MOST_TURNS, MOST_LOOKED, MOST_CHANGED, MOST_KEPT, MOST_SECONDS = 20_000, 2_000_000_000, 4_000_000, 4_000_000, 60
READ_SECONDS = 10
# States that were asked for last are kept, as many as have so many words together, and at least two: a turn is told from those
# before and after it.
MOST_RECENT, RECENT_WORDS = 16, 400_000
NO_HOPS = 4_294_967_295
NOBODY = None
NO_REFERENCE = 4_294_967_295
KINDS = ("nothing", "passed", "asked", "ended", "taken", "polled", "handed", "refused", "looked", "followed", "won", "lost")
FOLLOWS = ("looked", "followed", "won", "lost")


class Fault(Exception):
    """A case that is not run: what is wrong, the number of the refusal if there is one, and the line that causes it. `key` and
    `values` say it in any language; what the text of a case is refused for stands in a part of its own."""

    def __init__(self, key: str, number: Optional[int] = None, line: Optional[int] = None, text: Optional[str] = None, part: str = "faults", **values):
        self.key, self.number, self.line, self.given, self.part, self.values = key, number, line, text, part, values
        super().__init__(self.say(words()))

    def say(self, said: Words) -> str:
        if self.given is not None:
            return self.given
        if self.number is not None:
            reason = f"refusal-{self.number}" if f"refusal-{self.number}" in said.parts["faults"] else "refusal-other"
            return said.say("faults", "refusal", number=self.number, reason=said.say("faults", reason))
        return said.say(self.part, self.key, **self.values)

    @property
    def text(self) -> str:
        return str(self)


class Box:
    """A box in a state: its registers, and the rest as it is asked for."""

    def __init__(self, state: "State", b: int):
        status, cell, self.since, self.batch = state.words[state.registers(b):state.registers(b) + 4]
        self.state, self.number, self.status = state, b, case.STATUSES[status]
        self.asker = cell - 1 if cell else NOBODY  # whom its cell holds

    @property
    def runs(self) -> list[tuple[int, int]]:
        """The run that is followed first stands first; the end is excluded."""
        return list(self.stored())[::-1]

    def stored(self) -> Iterator[tuple[int, int]]:
        """Its runs as its stretch has them, up to the zeros behind them."""
        saved = self.state.words
        for at in range(self.state.stretch(self.number), self.state.stretch(self.number + 1), 2):
            if saved[at + 1] == 0:
                break
            yield saved[at], saved[at + 1]

    @property
    def carried(self) -> int:
        return sum(end - first for first, end in self.stored())

    @property
    def tally(self) -> dict[str, int]:
        at = self.state.tallies(self.number)
        return {name: self.state.long(at + 2 * place) for place, name in enumerate(case.TALLY)}

    @property
    def black(self) -> bool:
        return bool(self.state.words[State.BLACK] >> self.number & 1)


class State:
    """A state, over saved words as SPECIFICATION 8.1 lays them out."""

    HOLDER, COLOUR, BLACK, REGISTERS = 13, 14, 15, 16

    def __init__(self, saved: array, n: int, workers: int):
        self.words, self.n, self.workers = saved, n, workers

    def registers(self, b: int) -> int:
        return self.REGISTERS + 4 * b

    def tallies(self, b: int) -> int:
        return self.REGISTERS + 4 * self.workers + 8 * b

    def stretch(self, b: int) -> int:
        return self.REGISTERS + 12 * self.workers + self.n + (2 * self.n + 4) * b

    def long(self, at: int) -> int:
        return self.words[at] + (self.words[at + 1] << 32)

    def __eq__(self, other) -> bool:
        return self.words == other.words

    @property
    def counts(self) -> dict[str, int]:
        return {name: self.long(1 + 2 * at) for at, name in enumerate(case.COUNTS)}

    @property
    def holder(self) -> int:
        return self.words[self.HOLDER]

    @property
    def token_black(self) -> bool:
        return bool(self.words[self.COLOUR])

    @property
    def marks(self) -> array:
        at = self.REGISTERS + 12 * self.workers
        return self.words[at:at + self.n]

    def mark(self, v: int) -> int:
        return self.words[self.REGISTERS + 12 * self.workers + v]

    def box(self, b: int) -> Box:
        return Box(self, b)

    @property
    def boxes(self) -> list[Box]:
        return [Box(self, b) for b in range(self.workers)]


class Arrow(NamedTuple):
    """What goes from one box to another: `ask`, `hand`, `no` or `token`. A fresh one goes in this very turn; the others stand:
    an ask in its cell, a reply until it is taken in. A hand-over has runs of references."""

    kind: str
    source: int
    target: int
    fresh: bool
    runs: tuple[tuple[int, int], ...] = ()


class Run:
    """A case that is run: the graph that the library read, and all states. Kept are the first, one every so many turns, and of
    each turn what it changed. It grows while the library makes turns, until it is `done`."""

    def __init__(self, told: dict, lines: dict[str, list[int]], saved: list[int]):
        self.n, _, self.workers, self.batch, self.cutoff = lines["store"]
        self.names, self.deals = told["names"], told["deals"]
        self.targets, self.starts, self.hops = lines["targets"], lines["starts"], lines["hops"]
        offsets = lines["offsets"]
        self.sources = [v for v in range(self.n) for _ in range(offsets[v + 1] - offsets[v])]
        if saved[0] != case.FORM:
            raise Fault("broken")
        self.now = State(array("I", saved), self.n, self.workers)
        self.every = max(64, -(-MOST_TURNS * len(saved) // MOST_KEPT))
        self.kept = [self.now.words[:]]
        self.turn_boxes, self.turn_asked, self.turn_kinds = bytearray(), bytearray(), bytearray()
        self.looked_at = array("I")  # the reference that each turn looked at, claimed along or followed
        self.places, self.changes = array("Q", [0]), array("I")
        self.rounds = array("I", [0])  # whole stretches, each with a turn of every box, after each turn
        self.seen: set[int] = set()
        self.tops = [0] * self.workers  # how many runs each box has
        self.settle(range(self.workers))
        self.first = State(self.kept[0], self.n, self.workers)
        self.total = self.left = self.freed = 0
        self.finished = self.done = False
        self.dead: Optional[list[int]] = None
        self.fault: Optional[Fault] = None
        self.lock, self.recent = Lock(), OrderedDict()
        self.most_recent = min(max(2, RECENT_WORDS // len(saved)), MOST_RECENT)
        self.process: Optional[subprocess.Popen] = None

    def __len__(self) -> int:
        """How many turns are known."""
        return len(self.turn_kinds)

    def stop(self) -> None:
        """Makes no further turns."""
        if self.process and self.process.poll() is None:
            self.process.kill()

    @property
    def kinds(self) -> list[str]:
        return [KINDS[kind] for kind in self.turn_kinds]

    def kind(self, number: int) -> str:
        return KINDS[self.turn_kinds[number - 1]] if number else ""

    @property
    def reached(self) -> int:
        """R: the references that leave objects to which a chain leads, by their hop counts."""
        return sum(self.hops[source] != NO_HOPS for source in self.sources)

    @property
    def bound(self) -> int:
        """The stretches, or rounds of cards, after which every order has finished (SPECIFICATION 6)."""
        return 7 * self.reached + 4 * self.workers + 2

    def settle(self, boxes) -> None:
        """Counts the runs of these boxes anew, from where they were."""
        saved = self.now.words
        for b in boxes:
            at, top = self.now.stretch(b), self.tops[b]
            while top < self.n + 2 and saved[at + 2 * top + 1] != 0:
                top += 1
            while top and saved[at + 2 * top - 1] == 0:
                top -= 1
            self.tops[b] = top

    def grow(self, box: int, asked: int, finished: int, changed: list[int]) -> None:
        """One more turn, which changed these words: places and words in turn."""
        now = self.now
        front = now.words[now.stretch(box) + 2 * self.tops[box] - 2] if self.tops[box] else NO_REFERENCE
        before = glance(now, box)
        for at, word in zip(changed[::2], changed[1::2]):
            now.words[at] = word
        stretches, length = now.stretch(0), 2 * self.n + 4
        self.settle({(at - stretches) // length for at in changed[::2] if at >= stretches})
        kind = kind_of(before, glance(now, box), now, not changed)
        self.changes.extend(changed)
        self.places.append(len(self.changes))
        self.looked_at.append(front if kind in FOLLOWS else NO_REFERENCE)
        self.seen.add(box)
        whole = len(self.seen) == self.workers
        self.rounds.append(self.rounds[-1] + whole)
        if whole:
            self.seen.clear()
        self.finished = bool(finished)
        if (len(self) + 1) % self.every == 0:
            self.kept.append(now.words[:])
        self.turn_boxes.append(box)
        self.turn_asked.append(asked)
        self.turn_kinds.append(KINDS.index(kind))

    def state(self, number: int) -> State:
        """The state after so many turns."""
        with self.lock:
            if number not in self.recent:
                near, saved = number // self.every * self.every, self.kept[number // self.every]
                for other, state in self.recent.items():
                    if near < other < number:
                        near, saved = other, state.words
                saved = saved[:]
                for at in range(self.places[near], self.places[number], 2):
                    saved[self.changes[at]] = self.changes[at + 1]
                self.recent[number] = State(saved, self.n, self.workers)
                while len(self.recent) > self.most_recent:
                    self.recent.popitem(last=False)
            self.recent.move_to_end(number)
            return self.recent[number]

    def looked(self, number: int) -> Optional[int]:
        """The reference that the turn looked at, claimed along or followed."""
        reference = self.looked_at[number - 1] if number else NO_REFERENCE
        return None if reference == NO_REFERENCE else reference

    def followed(self, number: int) -> list[int]:
        """The references that the first so many turns followed."""
        looked = KINDS.index("looked")
        return [e for e, kind in zip(self.looked_at[:number], self.turn_kinds) if e != NO_REFERENCE and kind != looked]

    def arrows(self, number: int) -> list[Arrow]:
        """What goes from box to box in a turn, and what stands after it."""
        after = self.state(number)
        before, acting = (self.state(number - 1), self.turn_boxes[number - 1]) if number else (after, None)
        out = []
        for b in range(self.workers):
            old, new = before.box(b), after.box(b)
            if new.asker is not NOBODY:
                out.append(Arrow("ask", new.asker, b, new.asker != old.asker))
            if new.status in ("given", "denied"):
                fresh = old.status != new.status
                replier = acting if fresh else self.turn_boxes[self.replied(number, b, new.status)]
                runs = tuple(new.runs) if new.status == "given" else ()
                out.append(Arrow("hand" if runs else "no", replier, b, fresh, runs))
        if number and self.kind(number) == "passed":
            out.append(Arrow("token", before.holder, after.holder, True))
        return out

    def replied(self, number: int, b: int, status: str) -> int:
        """The place of the turn that gave box b the reply which awaits it after so many turns."""
        register, code = self.now.registers(b), case.STATUSES.index(status)
        for turn in range(number - 1, -1, -1):
            places = self.changes[self.places[turn]:self.places[turn + 1]:2]
            if register in places and self.changes[self.places[turn] + 2 * places.index(register) + 1] == code:
                return turn
        raise Fault("broken")

    def sentence(self, number: int, said: Optional[Words] = None) -> str:
        """What the turn did, with its number."""
        said = said or words()
        if not number:
            return said.say("sentences", "start" if self.first.box(0).status != "idle" else "start-empty")
        return said.say("sentences", "turn", number=number, sentence=self.told(number, said))

    def told(self, number: int, said: Words) -> str:
        """What the turn did, read off the states before and after it."""
        before, after = self.state(number - 1), self.state(number)
        b, kind = self.turn_boxes[number - 1], self.kind(number)
        old, new = before.box(b), after.box(b)
        key, more = kind, {}
        if kind == "nothing":
            key, more = f"nothing-{old.status}", {"asked": self.turn_asked[number - 1]}
        elif kind == "passed":
            more["colour"] = said.say("sentences", "passed-black" if after.token_black else "passed-white")
            more["where"] = said.say("sentences", "passed-on" if after.holder != b else "passed-round", to=after.holder)
            more["whitened"] = said.say("sentences", "whitened") if old.black and not new.black else ""
        elif kind == "asked":
            more["asked"] = next(c for c, box in enumerate(after.boxes) if box.asker == b)
        elif kind == "taken":
            key = "taken-refusal" if old.status == "denied" else "taken"
            more["taken"] = said.number("sentences", "reference", new.carried)
        elif kind == "handed":
            more["blackened"] = said.say("sentences", "blackened") if new.black and not old.black else ""
            more["kept"] = said.number("sentences", "reference", new.carried)
            more["given"] = after.box(old.asker).carried
        elif kind in FOLLOWS:
            reference = self.looked(number)
            target = self.targets[reference]
            more = {"source": self.sources[reference], "target": target, "owner": before.mark(target) - 1, "behind": ""}
            if new.status == "idle":
                more["behind"] = said.say("sentences", "behind" if old.asker is NOBODY else "behind-refuses", asker=old.asker)
            key = "followed-start" if kind == "followed" and target in self.starts else kind
        return said.say("sentences", key, box=b, batch=new.batch, **{"asker": old.asker, **more})


class Glance(NamedTuple):
    """What tells a turn's kind: of its box the status, cell, colour, won and lost claims, and of the token its holder and colour."""

    status: str
    cell: int
    black: int
    won: int
    lost: int
    holder: int
    colour: int


def glance(state: State, b: int) -> Glance:
    saved, at, tally = state.words, state.registers(b), state.tallies(b)
    return Glance(case.STATUSES[saved[at]], saved[at + 1], saved[State.BLACK] >> b & 1, saved[tally + 2], saved[tally + 4],
                  saved[State.HOLDER], saved[State.COLOUR])


def kind_of(old: Glance, new: Glance, after: State, same: bool) -> str:
    """What kind of turn it was."""
    if same:
        return "nothing"
    if old.holder != new.holder or old.status == "idle" and (old.colour, old.black) != (new.colour, new.black):
        return "passed"
    if old.status == "idle" and new.status == "asking":
        return "asked"
    if new.status == "ended":
        return "ended"
    if old.status in ("denied", "given"):
        return "taken"
    if old.status == "poll":
        if not old.cell:
            return "polled"
        return "handed" if after.box(old.cell - 1).status == "given" else "refused"
    if new.status == "claim":
        return "looked"
    return "won" if new.won != old.won else "lost" if new.lost != old.lost else "followed"


def read_case(text: str, folder: str, refusal: Optional[int] = None) -> dict:
    """What `course_read.py` answers on a case; Fault where that has no answer."""
    if len(text) > MOST_TEXT:
        raise Fault("too-long", most=f"{MOST_TEXT:,}")
    command = [sys.executable, str(READ), str(READ_SECONDS), folder] + ([] if refusal is None else [str(refusal)])
    try:
        done = subprocess.run(command, input=text.encode("utf-8", "surrogatepass"), capture_output=True, timeout=2 * READ_SECONDS)
    except subprocess.TimeoutExpired:
        raise Fault("too-slow") from None
    if done.returncode in (-signal.SIGXCPU, -signal.SIGKILL):
        raise Fault("too-slow")
    if done.returncode:
        last = done.stderr.decode("utf-8", "replace").strip().splitlines()[-1:]
        known = {"MemoryError": "too-much", "UnicodeDecodeError": "not-utf8"}
        raise Fault(known.get(last[0].split(":")[0] if last else "", "broken"))
    answer = json.loads(done.stdout)
    if "fault" in answer:
        if answer["key"] is None:
            raise Fault("given", text=answer["fault"], line=answer["line"])
        raise Fault(answer["key"], line=answer["line"], part="case", **answer["values"])
    return answer


def begin(text: str, most: int = MOST_TURNS) -> tuple[Run, Thread]:
    """Begins to run a case in the text form of case.py: the run as it starts, and what makes it grow. Raises Fault for a case that
    is refused."""
    if not STEPS.exists():
        raise Fault("not-built", program=STEPS.relative_to(TOP))
    with tempfile.TemporaryDirectory() as folder:
        told = read_case(text, folder)
        process = subprocess.Popen([str(STEPS), folder, *map(str, (most, MOST_LOOKED, MOST_CHANGED))],
                                   stdout=subprocess.PIPE, stderr=subprocess.PIPE, text=True)
        run = begun(told, process, text)
    run.process = process
    watch = Thread(target=kill_late, args=(process,), daemon=True)
    growing = Thread(target=read_turns, args=(run, process), daemon=True)
    watch.start()
    growing.start()
    return run, growing


def kill_late(process: subprocess.Popen) -> None:
    try:
        process.wait(MOST_SECONDS)
    except subprocess.TimeoutExpired:
        process.kill()


def begun(told: dict, process: subprocess.Popen, text: str) -> Run:
    """The run, from the lines before its first turn."""
    lines: dict[str, list[int]] = {}
    refusal = None
    for line in process.stdout:
        word, *rest = line.split()
        if word == "refusal":
            refusal = int(rest[0])
            break
        lines[word] = [int(value) for value in rest]
        if word == "turns":
            run = Run(told, lines, lines["saved"])
            run.total = lines["turns"][0]
            return run
    close(process)
    if refusal is None:
        raise Fault("broken")
    with tempfile.TemporaryDirectory() as folder:
        raise Fault("refusal", refusal, read_case(text, folder, refusal)["line"])


def close(process: subprocess.Popen) -> int:
    """Lets go of the program; the status that it ended with."""
    process.stdout.close()
    process.stderr.close()
    return process.wait()


def read_turns(run: Run, process: subprocess.Popen) -> None:
    """Takes the turns in as they are made, and what the library found at the end."""
    whole = False
    for line in process.stdout:
        word, *rest = line.split()
        numbers = [int(value) for value in rest]
        if not line.endswith("\n"):
            break  # cut off, where the program was stopped
        if word == "turn":
            run.grow(numbers[0], numbers[1], numbers[2], numbers[3:])
        elif word == "left":
            run.left, whole = numbers[0], True
        elif word == "freed":
            run.freed = numbers[0]
        elif word == "dead":
            run.dead = numbers
        else:
            break
    if close(process) or not whole:
        run.left, run.fault = run.total - len(run), Fault("too-slow" if process.returncode == -signal.SIGKILL else "broken")
    run.done = True


def play(text: str, most: int = MOST_TURNS) -> Run:
    """Runs a case to its end. Raises Fault for one that is refused."""
    run, growing = begin(text, most)
    growing.join()
    if run.fault:
        raise run.fault
    return run
