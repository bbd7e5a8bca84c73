"""What becomes of each request of a report with moves, and what a hostile hand hit: told line by line, for tools/story and tools/page."""

import dataclasses

import rings
from report import FRONT, Line
from rules import Rules

RING_FRAME, GRANT_FRAMES = 2, 2


@dataclasses.dataclass
class Told:
    """A request in one epoch: the lines of what became of it."""

    id: int
    what: str
    epoch: int
    submitted: int
    places: int
    issued: int = 0
    index: int | None = None
    fetched: tuple[int, int] | None = None
    job: int = 0
    effects: list[int] = dataclasses.field(default_factory=list)
    fault: int = 0
    replied: tuple[int, str] | None = None
    answered: tuple[int, str] | None = None
    data: list[int] = dataclasses.field(default_factory=list)

    @property
    def is_open(self) -> bool:
        if self.answered is None:
            return True
        return self.what.startswith("read") and self.answered[1] == "ok" and len(self.data) < self.places

    @property
    def state(self) -> str:
        """How far it is, in words."""
        if self.answered:
            return f"answered at line {self.answered[0]}"
        if self.replied:
            return f"replied to at line {self.replied[0]}, and its answer isn't told"
        if self.fetched:
            return f"fetched at lines {self.fetched[0]} to {self.fetched[1]}, by job {self.job}, and not replied to"
        return f"issued at line {self.issued}, and not fetched" if self.issued else "submitted, and not issued"


@dataclasses.dataclass
class Push:
    """A producer that was raised, whose event word is still to be read and whose event to be sent."""

    end: str
    line: int
    old: int
    new: int
    shown: int | None = None
    shown_at: int = 0
    asked: tuple[int, int] | None = None


@dataclasses.dataclass
class Read:
    """Who read a word, at which line, and for what."""

    line: int
    what: str


class Story:
    """Takes a report line by line, and keeps what is to be told."""

    def __init__(self) -> None:
        self.rules = Rules()
        self.abi, self.order, self.start = 64, 0, 0
        self.requests: list[Told] = []
        self.latest: dict[int, Told] = {}
        self.epoch = 0
        self.quiets: list[tuple[int, str, list[str]]] = []
        self.hits: list[tuple[int, str, str]] = []
        self.events: list[tuple[int, str]] = []
        self.keys: dict[str, tuple[int, str]] = {}
        self.begin_epoch()

    def begin_epoch(self) -> None:
        self.pushed: dict[str, int | None] = {"front": None, "back": None}
        self.awaited: dict[str, tuple[int, int]] = {}
        self.push: dict[str, Push] = {}
        self.reads: dict[tuple[int, int], Read] = {}
        self.writers: dict[tuple[int, int], str] = {}

    @property
    def entries(self) -> int:
        return rings.entries_of(self.order)

    def ring_word(self, frame: int, word: int) -> int | None:
        """The word of the ring that a word of the guest's memory is."""
        return (frame - RING_FRAME) * rings.PAGE_WORDS + word if RING_FRAME <= frame < RING_FRAME + (1 << self.order) else None

    def value(self, word: int) -> int:
        return self.rules.memory.value(RING_FRAME + word // rings.PAGE_WORDS, word % rings.PAGE_WORDS)

    def see(self, line: Line) -> None:
        if line.is_move:
            self.see_move(line)
        else:
            self.see_line(line)
        fetched = self.rules.back.ring.fetched
        self.rules.see(line)
        if self.rules.back.ring.fetched != fetched:
            self.see_fetched()

    # Lines that are no moves.

    def see_line(self, line: Line) -> None:
        if line.kind == "begin":
            self.abi, self.order, self.start = line.abi or 64, line.order or 0, line.start or 0
        elif line.kind == "submit":
            self.see_submit(line)
        elif line.kind == "epoch":
            self.see_epoch(line)
        elif line.kind in ("quiet", "unsettled", "end"):
            self.see_quiet(line)
        elif line.kind == "poke":
            self.hits.append((line.number, line.text, self.hit(line)))
        elif line.kind == "key":
            self.keys[f"{FRONT}/{line.name}"] = line.number, line.text
            self.hits.append((line.number, line.text, "no line reads it after"))
        elif line.id in self.latest:
            self.see_request(line, self.latest[line.id or 0])

    def see_submit(self, line: Line) -> None:
        what = line.text.partition(f"submit {line.id} ")[2]
        places = line.count or 1 if line.act in ("read", "write", "barrier") else 1
        told = Told(line.id or 0, what, self.epoch, line.number, places)
        self.requests.append(told)
        self.latest[told.id] = told

    def see_epoch(self, line: Line) -> None:
        self.epoch += 1
        self.begin_epoch()
        for number, told in list(self.latest.items()):
            if told.answered is None:
                again = Told(told.id, told.what, self.epoch, line.number, told.places)
                self.requests.append(again)
                self.latest[number] = again

    def see_quiet(self, line: Line) -> None:
        left = [f"request {it.id} ({it.what}): {it.state}" for it in self.latest.values() if it.is_open]
        if left or line.kind != "end":
            self.quiets.append((line.number, line.kind, left))

    def see_request(self, line: Line, told: Told) -> None:
        if line.kind in ("effect", "flushed", "trimmed"):
            told.effects.append(line.number)
        elif line.kind == "fault":
            told.fault = line.number
        elif line.kind == "reply":
            told.replied = line.number, line.reason or ""
        elif line.kind == "answer":
            told.answered = line.number, line.reason or ""
        elif line.kind == "data":
            told.data.append(line.number)
        if not told.is_open:
            self.latest.pop(told.id, None)

    # What a hostile hand hit.

    def hit(self, line: Line) -> str:
        frame, word = line.frame or 0, line.word or 0
        if frame < GRANT_FRAMES:
            return self.hit_grant(frame, word)
        place = self.ring_word(frame, word)
        read = self.reads.get((frame, word))
        if place is None:
            return f"a word of frame {frame}" + (f", which {read.what} read at line {read.line}, before: what counts is what was read then" if read else "")
        name = rings.place_name(self.abi, self.entries, place)
        if place < len(rings.INDICES):
            return self.hit_index(place, line.value or 0)
        name += " of a response" if self.writers.get((frame, word)) == "back" else ""
        if read:
            return f"{name}, a word already read: {read.what} read it at line {read.line}, and what counts is what it read then"
        return f"{name}, which nobody has read since it was written"

    def hit_grant(self, frame: int, word: int) -> str:
        gref = 512 * frame + word // 2
        standing = [it for it in self.rules.memory.standing.values() if it.gref == gref]
        if not standing:
            return f"the grant entry of reference {gref}, which isn't mapped"
        return f"a grant in use: mapping {standing[0].number} of reference {gref} stands since line {standing[0].line}, and keeps its frame and mode"

    def hit_index(self, place: int, value: int) -> str:
        name, produced = rings.INDICES[place], self.rules.back.ring.replied
        if place == 0:
            ahead = rings.distance(produced, value)
            return f"{name}, {ahead} ahead of rsp_prod: " + ("an overrun, once the back reads it" if ahead > self.entries else "no overrun")
        end = {1: "back", 3: "front"}.get(place)
        if end is None:
            return f"{name}, which the front reads"
        asked = self.awaited.get(end)
        if asked is None:
            return f"{name}, before the {end} wrote it"
        return f"{name}: the {end} asked at line {asked[1]} to be told at {asked[0]}, and now {value} stands there"

    # Moves.

    def see_move(self, line: Line) -> None:
        if line.act in ("read", "write") and line.frame is not None and line.word is not None:
            place = self.ring_word(line.frame, line.word)
            if place is not None and line.job is None:
                self.see_ring(line, place)
            self.see_read(line, place)
        elif line.act == "send" and line.who in self.push:
            del self.push[line.who]
        elif line.act == "getkey" and line.path in self.keys:
            self.see_key(line)
        self.see_unsent(line)

    def see_read(self, line: Line, place: int | None) -> None:
        """Keeps who read a word since it was written: entries and pages by the back and its jobs, responses by the front."""
        key = line.frame or 0, line.word or 0
        if line.act == "write":
            self.reads.pop(key, None)
            self.writers[key] = line.who or ""
        elif place is None or place >= rings.FIRST_ENTRY:
            self.reads[key] = Read(line.number, f"the {line.who}" if line.job is None else line.who or "")

    def see_ring(self, line: Line, place: int) -> None:
        """Takes in a move of an end on the ring."""
        mine, event, produced = {"front": ("front", 3, 0), "back": ("back", 1, 2)}[line.who or "front"]
        if line.act == "write" and place == event:
            self.awaited[mine] = line.value or 0, line.number
        elif line.act == "write" and place == produced:
            self.see_push(line, mine)
        elif line.act == "read" and place == 4 - event and mine in self.push:
            push = self.push[mine]
            push.shown, push.shown_at, push.asked = line.value, line.number, self.awaited.get("back" if mine == "front" else "front")

    def see_push(self, line: Line, end: str) -> None:
        old, new = self.pushed[end], line.value or 0
        if old is None:
            old = self.start
        self.pushed[end] = new
        if old == new:
            return
        self.push[end] = Push(end, line.number, old, new)
        if end == "front":
            for step in range(min(rings.distance(old, new), self.entries)):
                self.see_issued(line, (old + step) % rings.MODULUS)

    def see_issued(self, line: Line, index: int) -> None:
        at = rings.slot_word(self.abi, self.entries, index)
        request = rings.request_of(self.abi, [self.value(at + i) for i in range(rings.ENTRY_WORDS[self.abi])])
        told = self.latest.get(request.id)
        if told and not told.issued:
            told.issued, told.index = line.number, index

    def see_fetched(self) -> None:
        job = self.rules.back.jobs.get(self.rules.back.ring.fetched)
        told = self.latest.get(job.request.id) if job else None
        if job and told and not told.fetched:
            told.fetched, told.job = job.lines, job.number

    def see_unsent(self, line: Line) -> None:
        """Looks whether a push came to its end without the event that the other end waits for."""
        mover = "back" if line.job is not None else line.who or ""
        push = self.push.get(mover)
        if push is None or push.shown is None or line.number == push.shown_at or line.job is not None or line.act == "send":
            return
        del self.push[mover]
        if push.asked is None or not rings.is_due(push.asked[0], push.old, push.new):
            return
        other = "back" if mover == "front" else "front"
        why = (f"a lost wake-up: the {other} asked at line {push.asked[1]} to be told at {push.asked[0]}, line {push.line} went from {push.old} to "
               f"{push.new}, and after it read {push.shown} there the {mover} sends no event")  # fmt: skip
        self.events.append((push.shown_at, why))

    def end_pushes(self) -> None:
        """Looks at the pushes after which their end made no further move."""
        for mover in list(self.push):
            shown_at = self.push[mover].shown_at
            self.see_unsent(Line(shown_at + 1, "", "m", "event", mover))

    def see_key(self, line: Line) -> None:
        number, text = self.keys.pop(line.path or "")
        self.hits = [(at, said, f"the {line.who} reads it at line {line.number}" if at == number else what) for at, said, what in self.hits]
