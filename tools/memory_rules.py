"""The rules `coherent` and `touch` (docs/RULES.md): what words of the guest's memory hold, and which mappings stand, line by line."""

import dataclasses

from breach import Breach, at_line
from report import Line

GRANT_FRAMES, ENTRIES_A_FRAME, LAST_REFERENCE = 2, 512, 1023
FIRST_FRAME, LAST_FRAME = 2, 1023
PERMIT_ACCESS, READONLY, READING, WRITING = 1, 4, 8, 16
BAD_REFERENCE, GENERAL = -3, -1
MODES = {"r": "reading alone", "w": "writing too"}


@dataclasses.dataclass(frozen=True)
class Mapping:
    """A mapping that stands: its number, reference, frame and mode, and the line that made it."""

    number: int
    gref: int
    frame: int
    mode: str
    line: int


def entry_place(gref: int) -> tuple[int, int]:
    """The frame and first word of a grant entry."""
    return gref // ENTRIES_A_FRAME, gref % ENTRIES_A_FRAME * 2


class Memory:
    """What the lines so far leave in each word, and the mappings that stand."""

    def __init__(self) -> None:
        self.words: dict[tuple[int, int], tuple[int, int]] = {}
        self.epoch = 0
        self.standing: dict[int, Mapping] = {}
        self.made: dict[int, int] = {}
        self.ended: dict[int, int] = {}

    def value(self, frame: int, word: int) -> int:
        return self.words.get((frame, word), (0, 0))[0]

    def setter(self, frame: int, word: int) -> int:
        """The line that set the word last, or 0."""
        return self.words.get((frame, word), (0, self.epoch if frame < GRANT_FRAMES else 0))[1]

    def told(self, frame: int, word: int) -> str:
        """What a word holds, and by which line."""
        number, name = self.setter(frame, word), f"word {word} of frame {frame}"
        if (frame, word) in self.words:
            return f"{name} was written last at line {number}, {self.value(frame, word):08x}"
        return f"{name} was cleared by the epoch of line {number}" if number else f"no line wrote {name}, so it is 00000000"

    # `coherent`

    def not_coherent(self, line: Line) -> Breach | None:
        shows = line.kind == "word" or (line.is_move and line.act in ("read", "cas"))
        if not shows or line.frame is None or line.word is None or line.value == self.value(line.frame, line.word):
            return None
        came = self.setter(line.frame, line.word)
        return Breach("coherent", "word", self.told(line.frame, line.word), (came,) if came else ())

    # `touch`

    def map_verdict(self, gref: int, mode: str) -> tuple[int | None, int, str, tuple[int, ...]]:
        """The frame that a map gets, or none and the status of its refusal; why, and the lines that this comes from."""
        if gref > LAST_REFERENCE:
            return None, BAD_REFERENCE, f"there is no reference above {LAST_REFERENCE}", ()
        frame, word = entry_place(gref)
        flags, target = self.value(frame, word), self.value(frame, word + 1)
        lines = tuple(sorted({it for it in (self.setter(frame, word), self.setter(frame, word + 1)) if it}))
        entry = f"its entry is {flags:08x} {target:08x}, by {' and '.join(map(at_line, lines)) or 'no line'}"
        if flags & 3 != PERMIT_ACCESS or flags & 0xFFE0 or flags >> 16:
            return None, GENERAL, f"{entry}, and permits domain 0 no access", lines
        if mode == "w" and flags & READONLY:
            return None, GENERAL, f"{entry}, and permits reading alone", lines
        if not FIRST_FRAME <= target <= LAST_FRAME:
            return None, GENERAL, f"{entry}, and frame {target} can't be granted", lines
        return target, 0, f"{entry}, and grants frame {target}", lines

    def not_touched(self, line: Line) -> Breach | None:
        if not line.is_move or line.who == "front":
            return None
        if line.act in ("read", "write") and line.mapping is not None:
            return self.of_access(line, line.mapping)
        return self.of_map(line) if line.act == "map" else None

    def of_access(self, line: Line, number: int) -> Breach | None:
        found = self.standing.get(number)
        if found is None:
            if number in self.ended:
                why = f"mapping {number}, made at line {self.made[number]}, ended at line {self.ended[number]}"
                return Breach("touch", "mapping", why, (self.made[number], self.ended[number]))
            return Breach("touch", "mapping", f"no line made a mapping {number}")
        if found.frame != line.frame:
            return Breach("touch", "frame", f"mapping {number} is of frame {found.frame}, by line {found.line}", (found.line,))
        if line.act == "write" and found.mode == "r":
            return Breach("touch", "mode", f"mapping {number} is for reading alone, by line {found.line}", (found.line,))
        return None

    def of_map(self, line: Line) -> Breach | None:
        frame, status, why, lines = self.map_verdict(line.gref or 0, line.mode or "")
        if line.outcome == "refused":
            if frame is None and status == line.status:
                return None
            wanted = f"status {status}" if frame is None else f"a mapping of frame {frame}"
            return Breach("touch", "map", f"reference {line.gref} for {MODES[line.mode or 'r']} gets {wanted}: {why}", lines)
        if frame is None or frame != line.frame:
            wanted = f"is refused with status {status}" if frame is None else f"gets frame {frame}"
            return Breach("touch", "map", f"reference {line.gref} for {MODES[line.mode or 'r']} {wanted}: {why}", lines)
        if line.mapping in self.made:
            came = self.made[line.mapping]
            return Breach("touch", "number", f"mapping {line.mapping} was made at line {came}, and a number is given once", (came,))
        return None

    # One line further.

    def see(self, line: Line) -> None:
        if line.kind == "poke" or (line.is_move and line.act == "write"):
            self.put(line.frame, line.word, line.value, line.number)
        elif line.kind == "epoch":
            self.end_epoch(line.number)
        elif not line.is_move:
            return
        elif line.act == "cas" and line.old == line.value:
            self.put(line.frame, line.word, line.new, line.number)
        elif line.act == "map" and line.outcome == "ok":
            self.see_map(line)
        elif line.act == "unmap":
            self.see_unmap(line)

    def put(self, frame: int | None, word: int | None, value: int | None, number: int) -> None:
        self.words[frame or 0, word or 0] = value or 0, number

    def end_epoch(self, number: int) -> None:
        self.words = {place: held for place, held in self.words.items() if place[0] >= GRANT_FRAMES}
        self.ended.update(dict.fromkeys(self.standing, number))
        self.standing = {}
        self.epoch = number

    def see_map(self, line: Line) -> None:
        made = Mapping(line.mapping or 0, line.gref or 0, line.frame or 0, line.mode or "r", line.number)
        self.standing[made.number], self.made[made.number] = made, line.number
        frame, word = entry_place(made.gref)
        self.put(frame, word, self.value(frame, word) | READING | (WRITING if made.mode == "w" else 0), line.number)

    def see_unmap(self, line: Line) -> None:
        made = self.standing.pop(line.mapping or 0, None)
        if made is None:
            return
        self.ended[made.number] = line.number
        left = [other for other in self.standing.values() if other.gref == made.gref]
        clear = (0 if any(other.mode == "w" for other in left) else WRITING) | (0 if left else READING)
        frame, word = entry_place(made.gref)
        self.put(frame, word, self.value(frame, word) & ~clear, line.number)
