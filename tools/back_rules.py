"""The rules `fetch` and `overrun` (docs/RULES.md): the ring that the back maps, the entries that it reads, and what its jobs do."""

import rings
from back_jobs import DISK_ACTS, Job, Task, entry_text, step_text
from breach import Breach
from memory_rules import Mapping
from report import BACK, FRONT, Line

LAYOUTS = {None: 64, "x86_64-abi": 64, "x86_32-abi": 32}
OUTCOMES = {"effect": ("dread", "dwrite"), "flushed": ("flush",), "trimmed": ("trim",), "fault": DISK_ACTS}
STEPPING = ("read", "write", "map", *DISK_ACTS, "fence", "send", "closeport", "event", "watch", "watched", "getkey", "setkey")


class Ring:
    """The ring's pages, layout and indices as the back sees them in this epoch."""

    def __init__(self, start: int):
        self.start, self.named = start, 0
        self.abi: int | None = 64
        self.pages: list[Mapping] = []
        self.places: dict[int, int] = {}
        self.produced, self.produced_at = start, 0
        self.replied, self.replied_at = start, 0
        self.fetched = 0
        self.words: list[int] = []
        self.began = 0
        self.overran = 0
        self.overrun: tuple[int, int] | None = None

    @property
    def entries(self) -> int | None:
        order = rings.ORDERS.get(len(self.pages))
        return None if order is None else rings.entries_of(order)

    def word_of(self, line: Line) -> int | None:
        place = self.places.get(line.mapping or 0)
        return None if place is None else rings.PAGE_WORDS * place + (line.word or 0)

    @property
    def next_index(self) -> int:
        return (self.start + self.fetched) % rings.MODULUS

    def unconsumed(self, entries: int) -> int:
        waiting = rings.distance(self.replied, self.next_index)
        return min(rings.distance(self.next_index, self.produced), max(0, entries - waiting))


class BackRules:
    """What is kept of the ring, of the back's jobs and of the reply under way, and which rule the next line breaks."""

    def __init__(self) -> None:
        self.disk = rings.Disk(0, False, 0)
        self.start = 0
        self.begin_epoch()

    def begin_epoch(self) -> None:
        self.ring = Ring(self.start)
        self.offered = self.asked = False
        self.jobs: dict[int, Job] = {}
        self.made: dict[int, tuple[int, int, str, int]] = {}
        self.row: list[tuple[int, int]] = []
        self.rows = 0
        self.pushed: list[tuple[int, int]] | None = None
        self.moved: Line | None = None
        self.over: dict[int, int] = {}

    @property
    def is_persistent(self) -> bool:
        return self.offered and self.asked

    # `fetch`

    def not_fetched(self, line: Line) -> Breach | None:
        return self.not_stretch(line) or self.not_step(line) or self.not_outcome(line) or self.not_data(line) or self.not_reply(line)

    def entry_word(self, line: Line) -> int | None:
        if not line.is_move or line.who != "back" or line.act != "read":
            return None
        word = self.ring.word_of(line)
        return word if word is not None and word >= rings.FIRST_ENTRY else None

    def not_stretch(self, line: Line) -> Breach | None:
        ring, word = self.ring, self.entry_word(line)
        if word is not None:
            found = self.not_next_word(word)
            if found:
                return found
        is_own = line.is_move and line.who == "back"
        if is_own and word is None and ring.words:
            why = (f"the back reads an entry since line {ring.began}: {len(ring.words)} of its {rings.ENTRY_WORDS[ring.abi or 64]} words "
                   "are read, and no other move of its own stands between")  # fmt: skip
            return Breach("fetch", "an entry's word is missing", why, (ring.began,))
        if is_own and line.act in ("read", "write") and ring.word_of(line) is not None and (line.word or 0) >= rings.PAGE_WORDS:
            return Breach("fetch", "no word of the page", f"a page of the ring has words 0 to {rings.PAGE_WORDS - 1}")
        return None

    def not_next_word(self, word: int) -> Breach | None:
        """Why this word of the ring isn't the one that is read next."""
        ring, entries = self.ring, self.ring.entries
        part = "an entry's word is missing" if ring.words else "no entry is read here"
        if entries is None:
            return Breach("fetch", part, f"the back mapped {len(ring.pages)} pages in this epoch, and a ring has 1, 2, 4, 8 or 16")
        if ring.abi is None:
            return Breach("fetch", part, f"the `protocol` of line {ring.named} names no layout", (ring.named,))
        wanted = rings.slot_word(ring.abi, entries, ring.next_index) + len(ring.words)
        if word != wanted:
            why = (f"the word that is read next is word {wanted} of the ring ({rings.place_name(ring.abi, entries, wanted)}), of index "
                   f"{ring.next_index}, and this is word {word} ({rings.place_name(ring.abi, entries, word)})")  # fmt: skip
            return Breach("fetch", part, why, (ring.began,) if ring.words else ())
        if not ring.words and ring.unconsumed(entries) == 0:
            shown = f"line {ring.produced_at} showed" if ring.produced_at else "no line of this epoch showed more than"
            why = f"no request is unconsumed: {shown} req_prod {ring.produced}, and index {ring.next_index} is next"
            return Breach("fetch", part, why, (ring.produced_at,) if ring.produced_at else ())
        return None

    def not_step(self, line: Line) -> Breach | None:
        if not line.is_move or line.job is None or line.act not in STEPPING:
            return None
        job = self.jobs.get(line.job)
        if job is None:
            return Breach("fetch", "no such job", self.why_no_job(line.job), (self.over[line.job],) if line.job in self.over else ())
        part = {"dread": "another sector", "dwrite": "another sector", "map": "another map"}.get(line.act or "", "another step")
        if job.failed or job.refused:
            came = job.failed or job.refused
            return Breach("fetch", part, f"job {job.number} is at its end: line {came} was {'a fault' if job.failed else 'a refused map'}", (came,))
        if job.done >= len(job.tasks):
            return Breach("fetch", part, self.why_over(job), job.lines)
        task = job.tasks[job.done]
        if not task.is_step(job.place, line) and not job.skips_map(line):
            return Breach("fetch", part, f"the next step of job {job.number} is {step_text(task, job.place)}, {entry_text(job)}", job.lines)
        return self.not_through(job, task, line)

    def why_no_job(self, number: int) -> str:
        if number in self.over:
            return f"job {number} had its reply at line {self.over[number]}"
        return f"{self.ring.fetched} entries were fetched in this epoch, so there is no job {number}"

    def why_over(self, job: Job) -> str:
        return f"nothing is left for job {job.number} to do, {entry_text(job)}: {job.why}"

    def not_through(self, job: Job, task: Task, line: Line) -> Breach | None:
        """Whether a read or write goes through the mapping of its segment."""
        part, touches = "another mapping", line.act in ("read", "write")
        if touches and job.mapping is not None and line.mapping != job.mapping:
            return Breach("fetch", part, f"this segment goes through mapping {job.mapping}, by line {job.named}", (job.named,))
        if job.place == 0 and not task.is_step(0, line):
            kept = [number for number, (_, gref, mode, _) in self.made.items() if gref == task.gref and mode == "w"]
            if not kept:
                return Breach("fetch", part, f"reference {task.gref} isn't mapped, and no mapping of it was kept")
        if touches and job.mapping is None and self.made.get(line.mapping or 0, (0, -1, "", 0))[1:3] != (task.gref, "w"):
            return Breach("fetch", part, f"mapping {line.mapping} isn't one that was kept for reference {task.gref}")
        return None

    def not_outcome(self, line: Line) -> Breach | None:
        part = "an effect misplaced"
        is_outcome, moved = line.kind in OUTCOMES, self.moved
        if moved is None:
            return Breach("fetch", part, f"the line before is no call of the disk that it would come of") if is_outcome else None
        job = self.jobs.get(moved.job or 0)
        came = (moved.number,)
        if not is_outcome or job is None:
            return Breach("fetch", part, f"line {moved.number} calls the disk, and its outcome stands right after it", came)
        call = moved.act if line.kind != "effect" else "dread" if line.data else "dwrite"
        if moved.act not in OUTCOMES[line.kind] or call != moved.act:
            return Breach("fetch", part, f"line {moved.number} was the call `{moved.act}`", came)
        if line.id != job.request.id or (line.index or 0) + 1 != job.moved:
            return Breach("fetch", part, f"job {job.number} serves id {job.request.id}, and this is its place {job.moved - 1}", came)
        return None

    def not_data(self, line: Line) -> Breach | None:
        if not line.is_move or line.job is None or line.act != "write":
            return None
        job = self.jobs.get(line.job)
        if job is None or job.sector is None:
            return Breach("fetch", "another word of data", "the disk gave this job no sector that it would write")
        wanted = job.sector[(line.word or 0) % 128]
        return None if wanted == line.value else Breach("fetch", "another word of data", f"the disk gave {wanted:08x} there")

    # Replies.

    def written(self, line: Line) -> bool:
        """Whether the back itself writes a word other than req_event."""
        return line.is_move and line.who == "back" and line.act == "write" and self.ring.word_of(line) != 1

    def not_reply(self, line: Line) -> Breach | None:
        return (self.not_row(line) if self.written(line) else None) or self.not_told(line)

    def not_row(self, line: Line) -> Breach | None:
        ring, entries = self.ring, self.ring.entries
        if entries is None or ring.abi is None:
            return Breach("fetch", "another write", "the back writes, and has no ring by its maps and the `protocol` that it read")
        within, began = len(self.row), (self.row[0][1],) if self.row else ()
        place = rings.slot_word(ring.abi, entries, ring.replied) + within if within < 3 else 2
        if ring.word_of(line) != place:
            why = f"what the back writes next is {rings.place_name(ring.abi, entries, place)}, by rsp_prod {ring.replied}"
            return Breach("fetch", "another write" if within == 0 else "another word in the response", why, began)
        if within == 3:
            wanted = (ring.replied + 1) % rings.MODULUS
            return None if line.value == wanted else Breach("fetch", "another producer", f"rsp_prod goes from {ring.replied} to {wanted}", began)
        return self.not_like(line, within)

    def not_like(self, line: Line, within: int) -> Breach | None:
        """Whether no job at its end has this word in its response."""
        rows = self.rows + (0 if self.row else 1)
        words = [value for value, _ in self.row] + [line.value or 0]
        ended = [job for job in self.jobs.values() if job.ended is not None and job.ended < rows and job.response]
        if any((job.response or [])[: within + 1] == words for job in ended):
            return None
        part = "another word in the response"
        if not ended:
            return Breach("fetch", part, "no job is at its end: " + self.why_unended())
        likely = next((job for job in ended if (job.response or [])[:within] == words[:-1]), ended[0])
        why = (f"word {within} of a response of job {likely.number} is {(likely.response or [])[within]:08x}, {entry_text(likely)}: "
               f"{likely.outcome}, {likely.why}")  # fmt: skip
        return Breach("fetch", part, why, likely.lines)

    def why_unended(self) -> str:
        if not self.jobs:
            return "each that was fetched in this epoch had its reply, or none was"
        job = self.jobs[min(self.jobs)]
        if job.done < len(job.tasks):
            return f"job {job.number} is at {step_text(job.tasks[job.done], job.place)}"
        return f"job {job.number} came to its end after this reply began"

    def not_told(self, line: Line) -> Breach | None:
        if self.pushed is None:
            return Breach("fetch", "a reply without its words", "the line before didn't raise rsp_prod over a response") if line.kind == "reply" else None
        words, came = [value for value, _ in self.pushed], (self.pushed[0][1],)
        response = rings.response_of(words)
        if line.kind != "reply" or (response.id, response.status) != (line.id, line.reason):
            why = f"the words written since line {came[0]} are a response `{response.status}` to id {response.id}, and the reply is told at once"
            return Breach("fetch", "a reply misplaced", why, came)
        if self.answered() is None:
            return Breach("fetch", "a mapping left", self.why_left(words), came)
        return None

    def answers(self, words: list[int]) -> list[Job]:
        return [job for number, job in sorted(self.jobs.items()) if job.ended is not None and job.ended < self.rows and job.response == words]

    def left(self, job: Job) -> list[int]:
        return [number for number, (by, _, mode, _) in self.made.items() if by == job.number and not (self.is_persistent and mode == "w")]

    def answered(self) -> Job | None:
        """The job that the reply answers: the lowest that was at its end, has this response and left no mapping."""
        words = [value for value, _ in self.pushed or []]
        return next((job for job in self.answers(words) if not self.left(job)), None)

    def why_left(self, words: list[int]) -> str:
        found = self.answers(words)
        if not found:
            return "no job at its end has this response"
        number = self.left(found[0])[0]
        return f"job {found[0].number} didn't unmap mapping {number}, which it made at line {self.made[number][3]}"

    # `overrun`

    def not_halted(self, line: Line) -> Breach | None:
        ring = self.ring
        is_halt = line.kind == "halt" and line.act == "overrun"
        if ring.overrun:
            if is_halt and (line.first, line.second) == ring.overrun:
                return None
            why = f"line {ring.overran} showed req_prod {ring.overrun[0]}, too far ahead of rsp_prod {ring.overrun[1]}: its halt comes at once"
            return Breach("overrun", "halt", why, (ring.overran,))
        if is_halt:
            return Breach("overrun", "halt", "the line before shows no producer that overran")
        if ring.overran and is_service(line):
            return Breach("overrun", "service", f"the producer of line {ring.overran} overran, and nothing is served after it", (ring.overran,))
        return None

    # One line further.

    def see(self, line: Line) -> None:
        if line.kind == "epoch":
            self.begin_epoch()
            return
        if line.kind == "begin":
            self.start = line.start or 0
            self.disk = rings.Disk(line.sectors or 0, line.access == "ro", line.indirect or 0)
            self.ring = Ring(self.start)
        if self.written(line):
            self.see_written(line)
        else:
            self.see_reply(line)
            self.see_line(line)
        self.see_ring(line)
        self.see_keys(line)
        self.moved = line if line.is_move and line.job is not None and line.act in DISK_ACTS else None

    def see_written(self, line: Line) -> None:
        self.pushed = None
        if len(self.row) == 3:
            self.pushed, self.row = self.row, []
            return
        self.rows += not self.row
        self.row.append((line.value or 0, line.number))

    def see_reply(self, line: Line) -> None:
        if line.kind == "reply" and self.pushed is not None:
            job = self.answered()
            if job:
                del self.jobs[job.number]
                self.over[job.number] = line.number
        self.pushed = None

    def see_line(self, line: Line) -> None:
        if self.entry_word(line) is not None:
            self.see_entry(line)
        elif line.is_move and line.job is not None:
            self.see_job(line)
        elif line.is_move and line.act == "unmap":
            self.made.pop(line.mapping or 0, None)
        elif self.moved is not None and line.kind in ("effect", "fault"):
            job = self.jobs.get(self.moved.job or 0)
            if job and line.kind == "effect":
                job.sector = line.data
            elif job:
                job.failed = line.number
                job.note_end(self.rows)

    def see_entry(self, line: Line) -> None:
        ring = self.ring
        ring.began = ring.began if ring.words else line.number
        ring.words.append(line.value or 0)
        if ring.abi and len(ring.words) == rings.ENTRY_WORDS[ring.abi]:
            ring.fetched += 1
            job = Job(ring.fetched, ring.words, (ring.began, line.number), ring.abi, self.disk, self.is_persistent)
            job.note_end(self.rows)
            self.jobs[job.number], ring.words = job, []

    def see_job(self, line: Line) -> None:
        if line.act == "map" and line.outcome == "ok":
            self.made[line.mapping or 0] = line.job or 0, line.gref or 0, line.mode or "r", line.number
        if line.act == "unmap":
            self.made.pop(line.mapping or 0, None)
        elif line.job in self.jobs:
            self.jobs[line.job or 0].go(line, self.rows)

    def see_ring(self, line: Line) -> None:
        ring = self.ring
        ring.overrun = None
        if not line.is_move or line.who != "back":
            return
        if line.act in ("read", "write") and ring.places.get(line.mapping or 0) == 0:
            if line.act == "read" and line.word == 0:
                ring.produced, ring.produced_at = line.value or 0, line.number
                if ring.entries and rings.distance(ring.replied, ring.produced) > ring.entries:
                    ring.overrun, ring.overran = (ring.produced, ring.replied), line.number
            elif line.act == "write" and line.word == 2:
                ring.replied, ring.replied_at = line.value or 0, line.number
        elif line.act == "map" and line.outcome == "ok":
            ring.places.setdefault(line.mapping or 0, len(ring.pages))
            ring.pages.append(Mapping(line.mapping or 0, line.gref or 0, line.frame or 0, line.mode or "r", line.number))

    def see_keys(self, line: Line) -> None:
        if not line.is_move or line.who != "back" or line.act not in ("getkey", "setkey"):
            return
        if line.act == "getkey" and line.path == f"{FRONT}/protocol":
            self.ring.abi, self.ring.named = LAYOUTS.get(line.key), line.number
        elif line.act == "setkey" and line.path == f"{BACK}/feature-persistent":
            self.offered = is_one(line.key)
        elif line.act == "getkey" and line.path == f"{FRONT}/feature-persistent":
            self.asked = is_one(line.key)


def is_one(key: str | None) -> bool:
    return key is not None and len(key) <= 10 and key.lstrip("0") == "1"


def is_service(line: Line) -> bool:
    """Whether the back serves in a line: it touches memory, maps, calls the disk, or tells of that."""
    if line.kind in ("effect", "flushed", "trimmed", "fault", "reply"):
        return True
    return line.is_move and line.who != "front" and line.act in ("read", "write", "map", *DISK_ACTS)
