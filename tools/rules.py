"""What `check` tests, said in words: the first line of a report that breaks a rule, the rule, and what was expected.

It is a second reading of docs/RULES.md, apart from the proved program; the tests hold the two against each other.
"""

import dataclasses
from typing import BinaryIO

from back_rules import BackRules
from breach import Breach
from memory_rules import Memory
from report import BadLine, Line, lines_of
from request_rules import RequestRules

HOSTILE = ("poke", "key")


@dataclasses.dataclass
class Verdict:
    """What was found: `legal`, `broken` at a line, or `unread` where a line is none of a report."""

    kind: str
    number: int = 0
    breach: Breach | None = None
    text: str = ""

    def __str__(self) -> str:
        return f"broken {self.number} {self.breach.rule}" if self.breach else self.kind


class Rules:
    """All rules, over the lines so far."""

    def __init__(self) -> None:
        self.begun = self.hostile = self.ended = 0
        self.is_shown = False
        self.requests, self.memory, self.back = RequestRules(), Memory(), BackRules()

    def out_of_order(self, line: Line) -> Breach | None:
        if not self.begun and line.kind != "begin":
            return Breach("order", "begin", "a report begins with `begin`")
        if self.begun and line.kind == "begin":
            return Breach("order", "begin", f"`begin` stood at line {self.begun}, and stands once", (self.begun,))
        if self.ended:
            return Breach("order", "end", f"the report ended at line {self.ended}", (self.ended,))
        if line.is_move and not self.is_shown:
            return Breach("order", "moves", "line 1 says `lines`, so no moves are shown", (1,))
        return None

    def broken_by(self, line: Line) -> Breach | None:
        """The first rule that the line breaks, in their order."""
        found = self.out_of_order(line)
        if found is None and not self.hostile and line.kind not in HOSTILE:
            found = self.requests.broken_by(line)
        if found is None and self.is_shown:
            found = self.memory.not_coherent(line) or self.memory.not_touched(line) or self.back.not_fetched(line) or self.back.not_halted(line)
        return found

    def see(self, line: Line) -> None:
        if line.kind == "begin":
            self.begun, self.is_shown = line.number, line.detail == "moves"
        self.hostile = self.hostile or (line.number if line.kind in HOSTILE else 0)
        self.ended = line.number if line.kind == "end" else self.ended
        if self.is_shown:
            self.back.see(line)
            self.memory.see(line)
        if not self.hostile:
            self.requests.see(line)


def verdict_on(source: BinaryIO, lines: list[str] | None = None) -> Verdict:
    """What is found of a report; the texts of the lines that were read are put into `lines`."""
    rules, number = Rules(), 0
    try:
        for line in lines_of(source):
            number = line.number
            if lines is not None:
                lines.append(line.text)
            breach = rules.broken_by(line)
            if breach:
                return Verdict("broken", number, breach, line.text)
            rules.see(line)
    except BadLine as bad:
        return Verdict("unread", bad.number, text=bad.text)
    if rules.ended:
        return Verdict("legal", number)
    return Verdict("broken", number + 1, Breach("order", "end", "the report has no `end`"), "")
