"""A ring's shape and the layouts of its entries (`io/ring.h`, `io/blkif.h`), and the verdict on a request."""

import dataclasses

MODULUS = 1 << 32
PAGE_WORDS, PAGE_BYTES = 1024, 4096
FIRST_ENTRY = 16
INDICES = ("req_prod", "req_event", "rsp_prod", "rsp_event")
ORDERS = {1: 0, 2: 1, 4: 2, 8: 3, 16: 4}
ABIS = (64, 32)
ENTRY_WORDS = {64: 28, 32: 27}
READ, WRITE, BARRIER, FLUSH, DISCARD, INDIRECT = 0, 1, 2, 3, 5, 6
OPERATIONS = {0: "read", 1: "write", 2: "barrier", 3: "flush", 4: "reserved", 5: "discard", 6: "indirect"}
STATUSES = {0: "ok", -1: "error", -2: "unsupported"}
CODES = {word: code for code, word in STATUSES.items()}
MOST_SEGMENTS, MOST_PAGES, PAGE_SEGMENTS = 11, 8, 512


def distance(start: int, end: int) -> int:
    """The number below 2^32 that leads from one index to another."""
    return (end - start) % MODULUS


def entries_of(order: int) -> int:
    """How many entries a ring of 2^order pages has, under both layouts."""
    return 32 << order


def is_due(event: int, old: int, new: int) -> bool:
    """Whether an event is due after a push: the awaited index is among those passed (RING_PUSH_..._AND_CHECK_NOTIFY)."""
    return distance(event, new) < distance(old, new)


def slot_word(abi: int, entries: int, index: int) -> int:
    """The ring's word at which the entry of an index begins."""
    return FIRST_ENTRY + index % entries * ENTRY_WORDS[abi]


def place_name(abi: int, entries: int, word: int) -> str:
    """What a word of the ring, counted over all its pages, is to the protocol."""
    if word < len(INDICES):
        return INDICES[word]
    slot, within = divmod(word - FIRST_ENTRY, ENTRY_WORDS[abi])
    return f"ring word {word}" if word < FIRST_ENTRY or slot >= entries else f"slot {slot}, word {within}"


@dataclasses.dataclass(frozen=True)
class Segment:
    """Sectors `first` to `last` of the frame that a reference grants."""

    gref: int
    first: int
    last: int

    @property
    def is_sound(self) -> bool:
        return self.first <= self.last <= 7

    @property
    def sectors(self) -> int:
        return self.last - self.first + 1


@dataclasses.dataclass(frozen=True)
class Request:
    """What an entry says: `op` is its first byte, `inner` that of an indirect request."""

    op: int
    count: int
    device: int
    id: int
    sector: int
    flag: int = 0
    inner: int = 0
    segments: tuple[Segment, ...] = ()
    pages: tuple[int, ...] = ()

    @property
    def echoed(self) -> int:
        """The operation that the response carries."""
        return self.inner if self.op == INDIRECT else self.op

    @property
    def kind(self) -> int:
        """The operation that is done."""
        return self.echoed


def segment_of(first: int, second: int) -> Segment:
    return Segment(first, second & 255, second >> 8 & 255)


def request_of(abi: int, words: list[int]) -> Request:
    """What the words of an entry say; any words say something."""
    at = 2 if abi == 64 else 1
    head, number, sector = words[0], words[at] | words[at + 1] << 32, words[at + 2] | words[at + 3] << 32
    op, rest = head & 255, at + 4
    if op == DISCARD:
        return Request(op, words[rest] | words[rest + 1] << 32, head >> 16, number, sector, flag=head >> 8 & 255)
    if op == INDIRECT:
        pages = tuple(words[rest + 1 : rest + 1 + MOST_PAGES])
        return Request(op, head >> 16, words[rest] & 0xFFFF, number, sector, inner=head >> 8 & 255, pages=pages)
    segments = tuple(segment_of(words[rest + 2 * i], words[rest + 2 * i + 1]) for i in range(MOST_SEGMENTS))
    return Request(op, head >> 8 & 255, head >> 16, number, sector, segments=segments)


def response_words(request: Request, status: str) -> list[int]:
    """The three words of a response."""
    return [request.id % MODULUS, request.id >> 32, request.echoed | (CODES[status] & 0xFFFF) << 16]


@dataclasses.dataclass(frozen=True)
class Response:
    """What the first three words of a slot say as a response; `status` is none where the number is none."""

    id: int
    op: int
    code: int

    @property
    def status(self) -> str | None:
        return STATUSES.get(self.code)


def response_of(words: list[int]) -> Response:
    code = words[2] >> 16
    return Response(words[0] | words[1] << 32, words[2] & 255, code - (1 << 16) if code >> 15 else code)


@dataclasses.dataclass(frozen=True)
class Disk:
    """What a back serves: sectors, whether they may be written, and the most segments of an indirect request."""

    sectors: int
    read_only: bool
    indirect: int

    def verdict(self, request: Request, copied: list[Segment] | None = None) -> tuple[str, str]:
        """The status of a request that nothing goes wrong with, and why (`io/blkif.h`); of an indirect one before its segments are copied,
        or after."""
        if request.op == FLUSH:
            return self.of_flush(request)
        if request.op == DISCARD:
            return self.of_discard(request)
        if request.op == INDIRECT:
            early = self.of_indirect(request)
            return early if early[0] != "ok" or copied is None else self.of_segments(request, copied)
        return self.of_direct(request)

    def of_direct(self, request: Request) -> tuple[str, str]:
        if request.op not in (READ, WRITE, BARRIER):
            return "error", f"no operation has byte {request.op}"
        if request.op == BARRIER and self.read_only:
            return "unsupported", "no barriers are served"
        if request.op == WRITE and self.read_only:
            return "error", "the disk is read-only"
        if not 1 <= request.count <= MOST_SEGMENTS:
            return "error", f"{request.count} segments, and an entry has 1 to {MOST_SEGMENTS}"
        return self.of_segments(request, list(request.segments[: request.count]))

    def of_segments(self, request: Request, segments: list[Segment]) -> tuple[str, str]:
        wrong = next((number for number, segment in enumerate(segments) if not segment.is_sound), None)
        if wrong is not None:
            return "error", f"segment {wrong} is of sectors {segments[wrong].first} to {segments[wrong].last} of a frame of 8"
        end = request.sector + sum(segment.sectors for segment in segments)
        return ("error", f"it ends at sector {end} of {self.sectors}") if end > self.sectors else ("ok", "nothing is wrong with it")

    def of_flush(self, request: Request) -> tuple[str, str]:
        if self.read_only:
            return "unsupported", "no flushes are served"
        return ("error", "a flush with segments") if request.count else ("ok", "nothing is wrong with it")

    def of_discard(self, request: Request) -> tuple[str, str]:
        if self.read_only or request.flag & 1:
            return "unsupported", "no secure discards are served" if request.flag & 1 else "no discards are served"
        if request.count == 0:
            return "error", "a discard of no sectors"
        end = request.sector + request.count
        return ("error", f"it ends at sector {end} of {self.sectors}") if end > self.sectors else ("ok", "nothing is wrong with it")

    def of_indirect(self, request: Request) -> tuple[str, str]:
        if self.indirect == 0:
            return "unsupported", "no indirect requests are served"
        if request.inner not in (READ, WRITE):
            return "error", f"the inner operation is {request.inner}"
        if request.inner == WRITE and self.read_only:
            return "error", "the disk is read-only"
        if not 1 <= request.count <= self.indirect:
            return "error", f"{request.count} segments, and at most {self.indirect} are served"
        return "ok", "nothing is wrong with it"
