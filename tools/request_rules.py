"""The rules on requests of a report without hostile lines, from `state` to `quiet` (docs/RULES.md), line by line."""

import dataclasses

from breach import Breach, at_line
from report import BITS_32, REFUSALS, Line

WRITES = ("write", "barrier")
ORDERED = ("write", "barrier", "discard")
ZEROS = (0,) * 128
POOL, DIRECT = 1000, 11
HAS_NO_END = 18446744078004518910


@dataclasses.dataclass
class Asked:
    """A request that isn't finished: what its `submit` line asks for, and what was done of it in this epoch."""

    line: Line
    done: dict[int, int] = dataclasses.field(default_factory=dict)
    noted: dict[int, tuple[tuple[int, ...], int]] = dataclasses.field(default_factory=dict)
    fault: int | None = None
    reply: Line | None = None
    answered: int | None = None
    told: int = 0

    @property
    def act(self) -> str:
        return self.line.act or ""

    @property
    def places(self) -> int:
        return self.line.count or 1 if self.act in ("read", *WRITES) else 1

    @property
    def frames(self) -> int:
        if self.act not in ("read", *WRITES):
            return 0
        return frames_of(self.line.count or 0, self.act)

    @property
    def is_settled(self) -> bool:
        return bool(self.answered or self.reply or self.fault or len(self.done) == self.places)

    def forget_epoch(self) -> None:
        if not self.answered:
            self.done, self.fault, self.reply = {}, None, None


def frames_of(count: int, act: str) -> int:
    """The frames of the pool that so many sectors take, with those for indirect pages."""
    data = -(-count // 8)
    return data + -(-data // 512) if data > DIRECT and act != "barrier" else data


class RequestRules:
    """What the lines so far tell of the front, of requests and of sectors, and which rule the next line breaks."""

    def __init__(self) -> None:
        self.begin: Line | None = None
        self.ready = self.closing = self.broken = self.closed = 0
        self.epoch = 0
        self.submitted = 0
        self.asked: dict[int, Asked] = {}
        self.over: dict[int, int] = {}
        self.sectors: dict[int, tuple[tuple[int, ...] | None, int, int]] = {}
        self.ranges: list[tuple[int, int, tuple[int, ...] | None, int]] = []
        self.tests = {
            "ready": self.of_state, "closing": self.of_state, "closed": self.of_state, "broken": self.of_state, "unsettled": self.of_state,
            "halt": self.of_state, "submit": self.of_submit, "refuse": self.of_refuse, "effect": self.of_effect, "flushed": self.of_service,
            "trimmed": self.of_service, "fault": self.of_service, "reply": self.of_reply, "answer": self.of_answer, "data": self.of_data,
            "quiet": self.of_quiet,
        }  # fmt: skip

    def broken_by(self, line: Line) -> Breach | None:
        test = self.tests.get(line.kind)
        return test(line) if test else None

    # The front's states.

    def of_state(self, line: Line) -> Breach | None:
        why = None
        if line.kind == "ready" and (self.closed or self.broken or self.ready):
            held = next((n, w) for n, w in ((self.closed, "was closed"), (self.broken, "broke"), (self.ready, "was ready already")) if n)
            why = f"the front {held[1]} at line {held[0]}", held[0]
        elif line.kind == "closing" and self.closing:
            why = f"it began to close at line {self.closing}, and does so once", self.closing
        elif line.kind == "closed" and not self.closing:
            why = "it never began to close", 0
        elif line.kind == "closed" and self.asked:
            left = min(self.asked)
            why = f"request {left}, submitted at line {self.asked[left].line.number}, isn't finished", self.asked[left].line.number
        elif line.kind in ("broken", "unsettled"):
            why = f"`{line.kind}` stands in no report before a hostile line", 0
        elif line.kind == "halt" and line.act not in ("gone", "unplugged"):
            why = "before a hostile line the back halts only where its front is gone", 0
        return Breach("state", line.kind, why[0], (why[1],) if why[1] else ()) if why else None

    # Submissions.

    def refusal(self, line: Line) -> tuple[str, str] | None:
        """The first reason by which a submission is refused, with what it comes from; none where it is accepted."""
        begin, act, count = self.begin, line.act, line.count or 0
        if begin is None:
            return "notready", "there is no `begin`"
        entries, held = 32 << (begin.order or 0), sum(it.frames for it in self.asked.values())
        size, most = begin.sectors or 0, max(DIRECT, begin.indirect or 0)
        end = (line.sector or 0) + count if act != "flush" else 0
        segments = -(-count // 8)
        frames = frames_of(count, act or "") if act in ("read", *WRITES) else 0
        tests = (
            ("spent", self.submitted == BITS_32, "as many requests were made as there are numbers"),
            ("notready", not self.closing and (not self.ready or self.broken), self.unready()),
            ("closing", bool(self.closing), f"the front closes since line {self.closing}"),
            ("unsupported", begin.access == "ro" and act in ("barrier", "flush", "discard"), "the disk is read-only by line 1"),
            ("readonly", begin.access == "ro" and act == "write", "the disk is read-only by line 1"),
            ("range", end > size, f"it ends at sector {end}, and by line 1 the disk has {size}"),
            ("long", act in ("read", *WRITES) and segments > (DIRECT if act == "barrier" else most),
             f"it has {segments} segments, and at most {DIRECT if act == 'barrier' else most} go"),
            ("full", len(self.asked) >= entries, f"{len(self.asked)} requests are unfinished, and the ring has {entries} entries"),
            ("buffers", held + frames > POOL, f"it wants {frames} frames, and {held} of {POOL} are held"),
        )  # fmt: skip
        return next(((word, why) for word, applies, why in tests if applies), None)

    def unready(self) -> str:
        if self.broken:
            return f"the front broke at line {self.broken}"
        return f"the front isn't ready since the epoch of line {self.epoch}" if self.epoch else "the front isn't ready yet"

    def of_submit(self, line: Line) -> Breach | None:
        if line.id != self.submitted + 1:
            return Breach("submit", "number", f"the next number is {self.submitted + 1}")
        found = self.refusal(line)
        return Breach("submit", "limits", f"it is refused as `{found[0]}`: {found[1]}") if found else None

    def of_refuse(self, line: Line) -> Breach | None:
        if self.may_refuse(line.reason or ""):
            return None
        return Breach("refuse", "word", f"no submission at all would be refused with `{line.reason}` here: {self.why_none(line.reason or '')}")

    def why_none(self, word: str) -> str:
        if word in REFUSALS[3:] and (self.closing or not self.ready or self.broken):
            return "any would be refused as " + ("`closing`" if self.closing else "`notready`")
        return {
            "spent": f"{self.submitted} were made", "notready": "the front is ready, or closes", "closing": "the front doesn't close",
            "unsupported": "the disk may be written, by line 1", "readonly": "the disk may be written, by line 1",
            "range": "none can lie past the disk's end", "long": "none within the disk is as long",
            "full": f"{len(self.asked)} requests are unfinished", "buffers": "the pool has frames for each that the ring takes",
        }[word]  # fmt: skip

    def may_refuse(self, word: str) -> bool:
        """Whether some submission would be refused with that word."""
        begin = self.begin
        if begin is None:
            return word == "notready"
        spent = self.submitted == BITS_32
        if word in ("spent", "notready", "closing"):
            unready = not self.closing and bool(not self.ready or self.broken)
            return {"spent": spent, "notready": not spent and unready, "closing": not spent and bool(self.closing)}[word]
        if spent or self.closing or not self.ready or self.broken:
            return False
        read_only, size = begin.access == "ro", begin.sectors or 0
        most = 8 * max(DIRECT, begin.indirect or 0)
        full = len(self.asked) >= 32 << (begin.order or 0)
        return {
            "unsupported": read_only, "readonly": read_only, "range": size < HAS_NO_END,
            "long": (most + 1 if read_only else 89) <= min(size, BITS_32), "full": full and (not read_only or size != 0),
            "buffers": not full and self.may_lack(min(size, BITS_32, most), read_only),
        }[word]  # fmt: skip

    def may_lack(self, count: int, read_only: bool) -> bool:
        held = sum(it.frames for it in self.asked.values())
        return not read_only and held > POOL if count == 0 else held + frames_of(count, "read") > POOL

    # What is done of requests.

    def unasked(self, rule: str, line: Line) -> Breach:
        if line.id in self.over:
            return Breach(rule, "request", f"request {line.id} was over at line {self.over[line.id]}", (self.over[line.id],))
        return Breach(rule, "request", f"no request {line.id} was submitted")

    def unserved(self, rule: str, line: Line, acts: tuple[str, ...], index: int) -> Breach | None:
        """Why a place of a request may not be served now."""
        asked = self.asked.get(line.id or 0)
        if asked is None:
            return self.unasked(rule, line)
        came = (asked.line.number,)
        if asked.act not in acts:
            return Breach(rule, "operation", f"request {line.id} is a {asked.act}, by line {asked.line.number}", came)
        if asked.answered:
            return Breach(rule, "answered", f"it was answered at line {asked.answered}", (asked.answered,))
        if index >= asked.places:
            return Breach(rule, "place", f"it has {asked.places} sectors, by line {asked.line.number}; this would be number {index}", came)
        if asked.reply:
            return Breach(rule, "replied", f"it was replied to at line {asked.reply.number}, in this epoch", (asked.reply.number,))
        if asked.fault:
            return Breach(rule, "failed", f"the disk failed in it at line {asked.fault}, in this epoch", (asked.fault,))
        if index in asked.done:
            return Breach(rule, "twice", f"that place was done at line {asked.done[index]}, in this epoch", (asked.done[index],))
        return None

    def of_effect(self, line: Line) -> Breach | None:
        acts = ("read",) if line.data else WRITES
        found = self.unserved("effect", line, acts, line.index or 0)
        if found or line.data is None:
            return found or self.of_barrier(line)
        held, came = self.held((self.asked[line.id or 0].line.sector or 0) + (line.index or 0))
        if held is None or held == line.data:
            return None
        return Breach("effect", "sector", f"its sector holds {shown(held)}, by line {came}", (came,))

    def of_barrier(self, line: Line) -> Breach | None:
        asked = self.asked.get(line.id or 0)
        if asked is None or asked.answered or asked.act not in ORDERED or (line.kind == "trimmed" and asked.act != "discard"):
            return None
        for number, other in self.asked.items():
            waits = number < (line.id or 0) and other.act in ORDERED and "barrier" in (other.act, asked.act)
            if waits and not other.is_settled:
                why = f"request {number}, a {other.act} of line {other.line.number}, comes before it, and a barrier is between: it isn't done yet"
                return Breach("barrier", "order", why, (other.line.number,))
        return None

    def of_service(self, line: Line) -> Breach | None:
        """A flush, a discard or a fault; the order of barriers is asked first."""
        acts = {"flushed": ("flush",), "trimmed": ("discard",)}.get(line.kind, ("read", *WRITES, "flush", "discard"))
        early = self.of_barrier(line) if line.kind != "flushed" else None
        return early or self.unserved("service", line, acts, line.index or 0)

    def of_reply(self, line: Line) -> Breach | None:
        asked = self.asked.get(line.id or 0)
        if asked is None:
            return self.unasked("reply", line)
        if asked.answered:
            return Breach("reply", "answered", f"it was answered at line {asked.answered}", (asked.answered,))
        if asked.reply:
            return Breach("reply", "twice", f"it was replied to at line {asked.reply.number}, in this epoch", (asked.reply.number,))
        if line.reason == "ok" and len(asked.done) != asked.places:
            return Breach("reply", "undone", f"{len(asked.done)} of its {asked.places} places are done in this epoch", (asked.line.number,))
        if line.reason == "error" and not asked.fault:
            return Breach("reply", "unfailed", "the disk didn't fail in it in this epoch", (asked.line.number,))
        if line.reason == "unsupported":
            return Breach("reply", "unsupported", "before a hostile line none is replied so")
        return None

    def of_answer(self, line: Line) -> Breach | None:
        asked = self.asked.get(line.id or 0)
        if asked is None:
            return self.unasked("answer", line)
        if asked.answered:
            return Breach("answer", "twice", f"it was answered at line {asked.answered}", (asked.answered,))
        if asked.reply is None:
            return Breach("answer", "unreplied", "no reply to it stands in this epoch", (asked.line.number,))
        if asked.reply.reason != line.reason:
            return Breach("answer", "status", f"line {asked.reply.number} replied `{asked.reply.reason}`", (asked.reply.number,))
        return None

    def of_data(self, line: Line) -> Breach | None:
        asked = self.asked.get(line.id or 0)
        if asked is None:
            return self.unasked("data", line)
        if not asked.answered:
            return Breach("data", "unanswered", "its answer doesn't stand yet", (asked.line.number,))
        if asked.told != line.index:
            return Breach("data", "place", f"the next sector to be told is number {asked.told}", (asked.answered,))
        noted = asked.noted.get(asked.told)
        if noted is None or noted[0] != line.data:
            held = f"its effect, line {noted[1]}, showed {shown(noted[0])}" if noted else "no effect showed it"
            return Breach("data", "words", held, (noted[1],) if noted else ())
        return None

    def of_quiet(self, _: Line) -> Breach | None:
        if not self.asked:
            return None
        left = min(self.asked)
        return Breach("quiet", "unfinished", f"request {left}, submitted at line {self.asked[left].line.number}, isn't finished: {self.state(left)}",
                      (self.asked[left].line.number,))  # fmt: skip

    def state(self, number: int) -> str:
        """How far an unfinished request is."""
        asked = self.asked[number]
        if asked.answered:
            return f"{asked.told} of {asked.places} sectors were told"
        if asked.reply:
            return f"replied to at {at_line(asked.reply.number)}, and not answered"
        return f"{len(asked.done)} of {asked.places} places done, and no reply"

    # One line further.

    def held(self, sector: int) -> tuple[tuple[int, ...] | None, int]:
        """What a sector holds, where that is known, and by which line."""
        words, came, since = self.sectors.get(sector, (None, 0, 0))
        for first, count, left, number in self.ranges[since:]:
            if first <= sector < first + count:
                words, came = left, number
        return words, came

    def set_sector(self, sector: int, words: tuple[int, ...] | None, number: int) -> None:
        self.sectors[sector] = words, number, len(self.ranges)

    def see(self, line: Line) -> None:
        asked = self.asked.get(line.id or 0) if line.id is not None and line.kind != "submit" else None
        if line.kind == "begin":
            self.begin = line
        elif line.kind == "submit":
            self.submitted = line.id or 0
            self.asked[self.submitted] = Asked(line)
        elif line.kind in ("ready", "closing", "closed", "broken"):
            setattr(self, line.kind, line.number)
        elif line.kind == "epoch":
            self.ready, self.epoch = 0, line.number
            for each in self.asked.values():
                each.forget_epoch()
        elif asked is not None:
            self.see_done(line, asked)

    def see_done(self, line: Line, asked: Asked) -> None:
        """Takes in what was done of a request that isn't finished."""
        first, index = asked.line.sector or 0, line.index or 0
        if line.kind == "effect":
            words = line.data or ((((asked.line.tag or 0) + index) % (1 << 32)),) * 128
            asked.done[index] = line.number
            asked.noted[index] = words, line.number
            self.set_sector(first + index, words, line.number)
        elif line.kind in ("flushed", "trimmed"):
            asked.done[0] = line.number
        elif line.kind == "fault":
            asked.fault = line.number
            if asked.act in WRITES:
                self.set_sector(first + index, None, line.number)
        elif line.kind == "reply":
            asked.reply = line
        elif line.kind in ("answer", "data"):
            self.see_told(line, asked)
        if asked.act == "discard" and line.kind in ("trimmed", "fault"):
            self.ranges.append((first, asked.line.count or 0, ZEROS if line.kind == "trimmed" else None, line.number))

    def see_told(self, line: Line, asked: Asked) -> None:
        if line.kind == "answer":
            asked.answered = line.number
            is_over = asked.act != "read" or line.reason != "ok"
        else:
            asked.told = (line.index or 0) + 1
            is_over = asked.told == asked.places
        if is_over:
            del self.asked[line.id or 0]
            self.over[line.id or 0] = line.number


def shown(words: tuple[int, ...] | None) -> str:
    """The words of a sector in short."""
    if words is None:
        return "nothing known"
    return f"{words[0]:08x} in each word" if len(set(words)) == 1 else f"{words[0]:08x} {words[1]:08x} and so on"
