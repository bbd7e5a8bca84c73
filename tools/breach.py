"""What a line breaks: the rule, what was expected, and the lines that this comes from."""

import dataclasses

ORDER = (
    "order", "state", "submit", "refuse", "effect", "barrier", "service", "reply", "answer", "data", "quiet", "coherent", "touch", "fetch",
    "overrun",
)  # fmt: skip


@dataclasses.dataclass
class Breach:
    """A rule that a line breaks. `part` names which part of a rule of several; `why` says what was expected, `lines` where from."""

    rule: str
    part: str
    why: str
    lines: tuple[int, ...] = ()


def at_line(number: int | None) -> str:
    return f"line {number}" if number else "no line"
