"""The lines of a report (docs/REPORT.md): their grammar, what each says, and how a report is read.

A line of the grammar has one spelling. `line_of` reads one, `lines_of` a whole report as far as it is one.
"""

import dataclasses
import re
import sys
from collections.abc import Iterator
from typing import BinaryIO

FRONT = "/local/domain/1/device/vbd/51712"
BACK = "/local/domain/0/backend/vbd/1/51712"
MOST_BYTES = 1152
STATUSES = ("ok", "error", "unsupported")
REFUSALS = ("spent", "notready", "closing", "unsupported", "readonly", "range", "long", "full", "buffers")
BITS_32, BITS_64 = (1 << 32) - 1, (1 << 64) - 1

# The greatest value that each number of a line may have, and the least where that isn't 0.
MOST = {
    "order": 4, "persistent": 1000, "indirect": 960, "start": BITS_32, "sectors": BITS_64, "id": BITS_64, "index": BITS_32,
    "sector": BITS_64, "count": BITS_32, "frame": BITS_32, "word": BITS_32, "number": BITS_32, "other": BITS_32, "mapping": BITS_64,
    "gref": BITS_32, "port": BITS_32, "job": BITS_64, "place": 1023, "trimmed": BITS_64,
}  # fmt: skip
LEAST = {"count": 1, "job": 1}

NUMBER = r"(?P<{}>0|[1-9][0-9]{{0,19}})"
HEX = r"(?P<{}>[0-9a-f]{{8}})"
SIGNED = r"(?P<status>0|-?[1-9][0-9]{0,9})"
DATA = r"(?P<data>fill [0-9a-f]{8}|[0-9a-f]{1024})"
NAME, TEXT = r"(?P<name>[a-z0-9-]{1,32})", r"(?P<text>[!-~]{1,64})"
PATH = r"(?P<path>/[!-~]{0,79})"
WHO = r"(?P<who>front|back|job (?P<job>[1-9][0-9]{0,19}))"
BACKS = r"(?P<who>back|job (?P<job>[1-9][0-9]{0,19}))"
JOB = r"(?P<who>job (?P<job>[1-9][0-9]{0,19}))"


@dataclasses.dataclass(slots=True)
class Line:
    """What a line says. `kind` is its first word; that of a move is `m`, and `act` its verb. A field that it lacks is None."""

    number: int
    text: str
    kind: str
    act: str | None = None
    who: str | None = None
    job: int | None = None
    abi: int | None = None
    order: int | None = None
    persistent: int | None = None
    indirect: int | None = None
    start: int | None = None
    access: str | None = None
    sectors: int | None = None
    detail: str | None = None
    id: int | None = None
    index: int | None = None
    sector: int | None = None
    count: int | None = None
    tag: int | None = None
    data: tuple[int, ...] | None = None
    status: int | str | None = None
    reason: str | None = None
    frame: int | None = None
    word: int | None = None
    value: int | None = None
    old: int | None = None
    new: int | None = None
    mapping: int | None = None
    gref: int | None = None
    mode: str | None = None
    port: int | None = None
    outcome: str | None = None
    first: int | None = None
    second: int | None = None
    name: str | None = None
    path: str | None = None
    key: str | None = None

    @property
    def is_move(self) -> bool:
        return self.kind == "m"


def numbers(*names: str) -> str:
    return " ".join(NUMBER.format(name) for name in names)


ALTERNATIVES = {
    "begin": [rf"(?P<abi>64|32) {numbers('order', 'persistent', 'indirect', 'start')} (?P<access>rw|ro) {numbers('sectors')} (?P<detail>lines|moves)"],
    "submit": [
        rf"{numbers('id')} (?P<act>read|discard) {numbers('sector', 'count')}",
        rf"{numbers('id')} (?P<act>write|barrier) {numbers('sector', 'count')} {HEX.format('tag')}",
        rf"{numbers('id')} (?P<act>flush)",
    ],
    "refuse": [rf"(?P<reason>{'|'.join(REFUSALS)})"],
    "effect": [rf"{numbers('id', 'index')}(?: {DATA})?"],
    "data": [rf"{numbers('id', 'index')} {DATA}"],
    "fault": [numbers("id", "index")],
    "flushed": [numbers("id")],
    "trimmed": [numbers("id")],
    "reply": [rf"{numbers('id')} (?P<reason>{'|'.join(STATUSES)})"],
    "answer": [rf"{numbers('id')} (?P<reason>{'|'.join(STATUSES)})"],
    "poke": [r"(?P<place>0|[1-9][0-9]{0,3}) (?P<places>0|[1-9][0-9]{0,3}) (?P<decimal>0|[1-9][0-9]{0,9})"],
    "key": [rf"{NAME} {TEXT}"],
    "word": [rf"{numbers('frame', 'word')} {HEX.format('value')}"],
    "broken": [HEX.format("value")],
    "halt": [
        rf"(?P<act>overrun) {numbers('number', 'other')}", rf"(?P<act>gone|unplugged|badorder|badport) {numbers('number')}",
        rf"(?P<act>badkey) {NAME}", rf"(?P<act>refused) {numbers('gref')} {SIGNED}",
    ],
}  # fmt: skip
MOVES = [
    rf"(?P<who>front) (?P<act>read|write) {numbers('frame', 'word')} {HEX.format('value')}",
    rf"{BACKS} (?P<act>read|write) {numbers('mapping', 'frame', 'word')} {HEX.format('value')}",
    rf"{BACKS} (?P<act>map) {numbers('gref')} (?P<mode>r|w) (?P<outcome>ok) {numbers('mapping', 'frame')}",
    rf"{BACKS} (?P<act>map) {numbers('gref')} (?P<mode>r|w) (?P<outcome>refused) {SIGNED}",
    rf"{BACKS} (?P<act>unmap) {numbers('mapping')}",
    rf"{JOB} (?P<act>dread|dwrite) {numbers('sector')}",
    rf"{JOB} (?P<act>flush)",
    rf"{JOB} (?P<act>trim) {numbers('sector', 'trimmed')}",
    rf"{WHO} (?P<act>fence|send|event|closeport)",
    rf"{WHO} (?P<act>watch|watched) {PATH}",
    rf"{WHO} (?P<act>getkey) {PATH}(?: ={TEXT})?",
    rf"{WHO} (?P<act>setkey) {PATH} ={TEXT}",
    rf"(?P<who>front) (?P<act>cas) {numbers('frame', 'word')} {HEX.format('old')} {HEX.format('new')} {HEX.format('value')}",
    rf"(?P<who>front) (?P<act>port) {numbers('port')}",
    rf"(?P<who>back) (?P<act>bind) {numbers('port')} (?P<outcome>ok|refused)",
]
ALONE = ("ready", "closing", "closed", "epoch", "quiet", "busy", "unsettled", "end")
FORMS = {kind: [re.compile(form, re.ASCII) for form in forms] for kind, forms in {**ALTERNATIVES, "m": MOVES}.items()}
HEXES, DECIMALS = ("tag", "value", "old", "new"), ("abi",)


def sector_words(data: str) -> tuple[int, ...] | None:
    """The 128 words of a sector as a line shows it; none where the digits should have been `fill`."""
    if data.startswith("fill "):
        return (int(data[5:], 16),) * 128
    content = bytes.fromhex(data)
    words = tuple(int.from_bytes(content[at : at + 4], "little") for at in range(0, 512, 4))
    return None if len(set(words)) == 1 else words


def set_field(line: Line, name: str, text: str) -> bool:
    """Puts one field into a line; whether the text is in its range."""
    if name in MOST and name != "place":
        value = int(text)
        field = {"number": "first", "other": "second", "trimmed": "count"}.get(name, name)
        setattr(line, field, value)
        return LEAST.get(name, 0) <= value <= MOST[name]
    if name in ("place", "places", "decimal"):
        setattr(line, {"place": "frame", "places": "word", "decimal": "value"}[name], int(text))
        return int(text) <= (BITS_32 if name == "decimal" else 1023)
    if name == "data":
        line.data = sector_words(text)
        return line.data is not None
    if name == "status":
        line.status = int(text)
        return -(1 << 31) <= int(text) < 1 << 31
    setattr(line, "key" if name == "text" else name, int(text, 16) if name in HEXES else int(text) if name in DECIMALS else text)
    return True


def line_of(text: str, number: int = 0) -> Line | None:
    """The line of that text, without its line feed; none where the grammar has no such line."""
    kind, _, rest = text.partition(" ")
    if kind in ALONE:
        return Line(number, text, kind) if text == kind else None
    for form in FORMS.get(kind, ()):
        found = form.fullmatch(rest)
        if found:
            line = Line(number, text, kind)
            fields = {name: part for name, part in found.groupdict().items() if part is not None}
            return line if all(set_field(line, name, part) for name, part in fields.items()) else None
    return None


@dataclasses.dataclass
class BadLine(Exception):
    """A text of a report that is no line of the grammar, or lacks its line feed."""

    number: int
    text: str


def lines_of(source: BinaryIO) -> Iterator[Line]:
    """The lines of a report, one by one; raises BadLine at the first text that is none."""
    for number, raw in enumerate(iter(lambda: source.readline(MOST_BYTES + 1), b""), 1):
        text = raw.decode("latin-1")
        line = line_of(text[:-1], number) if text.endswith("\n") else None
        if line is None:
            raise BadLine(number, text)
        yield line


def opened(name: str | None) -> BinaryIO:
    """The report of that name, or standard input."""
    return sys.stdin.buffer if name is None or name == "-" else open(name, "rb")
