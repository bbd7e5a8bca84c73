"""A job of the back: the steps of its entry's work (`io/blkif.h`), how far it came, and both in words."""

import dataclasses

import rings
from report import Line

DISK_ACTS = ("dread", "dwrite", "flush", "trim")


@dataclasses.dataclass(frozen=True)
class Task:
    """A part of a job's work: a frame is mapped, and words and sectors are moved; or a call of the disk alone."""

    kind: str
    gref: int = 0
    mode: str = "r"
    sector: int = 0
    first: int = 0
    count: int = 0

    def step(self, place: int) -> tuple[str, int] | None:
        """The step at a place, from 0: the verb, and the word or sector; none after the last."""
        if place == 0:
            return {"flush": ("flush", 0), "trim": ("trim", 0)}.get(self.kind, ("map", 0))
        if self.kind == "page":
            return ("read", place - 1) if place <= self.count else None
        if self.kind not in ("store", "load"):
            return None
        sector, within = divmod(place - 1, 129)
        if sector >= self.count:
            return None
        word = 128 * (self.first + sector)
        if self.kind == "store":
            return ("read", word + within) if within < 128 else ("dwrite", self.sector + sector)
        return ("write", word + within - 1) if within else ("dread", self.sector + sector)

    def is_step(self, place: int, line: Line) -> bool:
        step = self.step(place)
        if step is None or step[0] != line.act:
            return False
        if line.act == "map":
            return (line.gref, line.mode) == (self.gref, self.mode)
        if line.act in ("read", "write"):
            return line.word == step[1]
        if line.act == "trim":
            return (line.sector, line.count) == (self.sector, self.count)
        return line.act == "flush" or line.sector == step[1]

    @property
    def keeps(self) -> bool:
        """Whether its map may be missing under persistent grants."""
        return self.kind == "load" or (self.kind == "store" and self.mode == "w")


class Job:
    """A job of the back that had no reply: the entry that it serves, and how far it came."""

    def __init__(self, number: int, words: list[int], lines: tuple[int, int], abi: int, disk: rings.Disk, persistent: bool):
        self.number, self.lines, self.disk, self.persistent = number, lines, disk, persistent
        self.request = rings.request_of(abi, words)
        self.copied: list[int] = []
        self.done = self.place = self.moved = 0
        self.refused = self.failed = 0
        self.mapping: int | None = None
        self.named = 0
        self.sector: tuple[int, ...] | None = None
        self.is_lost = False
        self.ended: int | None = None
        self.plan()

    @property
    def is_copying(self) -> bool:
        return self.request.op == rings.INDIRECT and len(self.copied) < 2 * self.request.count

    def plan(self) -> None:
        """The tasks, and the status once they are done, as far as the words tell."""
        request, copied = self.request, None
        self.status, self.why = self.disk.verdict(request)
        self.tasks: list[Task] = []
        if self.status != "ok":
            return
        segments = list(request.segments[: min(request.count, rings.MOST_SEGMENTS)])
        if request.op == rings.INDIRECT:
            self.tasks = pages(request)
            if self.is_copying:
                return
            copied = [rings.segment_of(*self.copied[2 * k : 2 * k + 2]) for k in range(request.count)]
            self.status, self.why = self.disk.verdict(request, copied)
            segments = copied
        if self.status == "ok":
            self.tasks += self.served(segments)

    def served(self, segments: list[rings.Segment]) -> list[Task]:
        request, sector, tasks = self.request, self.request.sector, []
        if request.op == rings.FLUSH:
            return [Task("flush")]
        if request.op == rings.DISCARD:
            return [Task("trim", sector=sector, count=request.count)]
        kind = "load" if request.kind == rings.READ else "store"
        mode = "w" if kind == "load" or self.persistent else "r"
        for segment in segments:
            tasks.append(Task(kind, segment.gref, mode, sector, segment.first, segment.sectors))
            sector += segment.sectors
        return tasks

    @property
    def outcome(self) -> str | None:
        """The status of its response, where its work is at its end."""
        if self.failed:
            return "error"
        if self.is_lost:
            return None
        if self.refused:
            return "error"
        return self.status if self.place == 0 and self.done >= len(self.tasks) else None

    @property
    def response(self) -> list[int] | None:
        return rings.response_words(self.request, self.outcome) if self.outcome else None

    def note_end(self, rows: int) -> None:
        if self.ended is None and self.outcome:
            self.ended = rows

    def skips_map(self, line: Line) -> bool:
        task = self.tasks[self.done]
        return self.persistent and task.keeps and self.place == 0 and task.is_step(1, line)

    def go(self, line: Line, rows: int) -> None:
        """Takes a move of its own in."""
        if self.done >= len(self.tasks) or self.refused or self.is_lost:
            self.is_lost = True
            return
        task = self.tasks[self.done]
        skipped = not task.is_step(self.place, line)
        if skipped and not self.skips_map(line):
            self.is_lost = True
            return
        self.refused = line.number if line.outcome == "refused" else 0
        self.place += 2 if skipped else 1
        if line.act in ("map", "read", "write") and line.mapping is not None:
            self.mapping, self.named = line.mapping, self.named if self.mapping == line.mapping else line.number
        if task.step(self.place) is None:
            self.done, self.place, self.mapping = self.done + 1, 0, None
        if line.act in DISK_ACTS:
            self.moved, self.sector = self.moved + 1, None
        if line.act == "read" and self.is_copying:
            self.copied.append(line.value or 0)
            if not self.is_copying:
                self.plan()
        self.note_end(rows)


def pages(request: rings.Request) -> list[Task]:
    """The pages of an indirect request, and how many words are read in each."""
    tasks, left = [], request.count
    for gref in request.pages:
        if left > 0:
            tasks.append(Task("page", gref, "r", count=2 * min(left, rings.PAGE_SEGMENTS)))
            left -= rings.PAGE_SEGMENTS
    return tasks


def step_text(task: Task, place: int) -> str:
    """A step as a person would say it."""
    step = task.step(place)
    if step is None:
        return "its end"
    verb, at = step
    return {
        "map": f"the map of reference {task.gref} for {'reading alone' if task.mode == 'r' else 'writing too'}",
        "read": f"the read of word {at} of reference {task.gref}'s frame", "write": f"the write of word {at} of reference {task.gref}'s frame",
        "dread": f"the read of sector {at}", "dwrite": f"the write of sector {at}", "flush": "the flush of the disk",
        "trim": f"the discard of {task.count} sectors from {task.sector} on",
    }[verb]  # fmt: skip


def entry_text(job: Job) -> str:
    return f"by its entry (lines {job.lines[0]} to {job.lines[1]}: {rings.OPERATIONS.get(job.request.op, 'operation ' + str(job.request.op))})"
