"""Two ends at the same time under the host of live/: how its programs are built and run, for edk2-at-once and qemu-at-once."""

import collections
import importlib.machinery
import os
import pathlib
import platform
import random
import signal
import subprocess
import sys
import tempfile
from collections.abc import Callable

sys.path.insert(0, str(pathlib.Path(__file__).resolve().parent.parent / "tools"))
from words import TOP, number, words_of  # noqa: E402

HERE = pathlib.Path(__file__).resolve().parent
live = importlib.machinery.SourceFileLoader("live", str(TOP / "tests" / "live")).load_module()
SECONDS = 120
COMPILERS = ("gcc", "clang")
# The back's loads and stores as plain moves of the processor, which are enough on x86 alone.
PLAIN = "-DWORD_ORDER=memory_order_relaxed"


class Difference(Exception):
    """What is wrong with a guest."""


class Ends:
    """The package whose end is built, the source of interop/ that stands in the place of this one of live/, and what else is linked."""

    def __init__(self, package: str, source: str, in_place_of: str, libraries: Callable):
        self.package, self.libraries = package, libraries
        kept = [each for each in live.SOURCES if each.name != in_place_of]
        self.flags = [f"-I{each}" for each in (TOP / "live", HERE, HERE / "out" / package)]
        self.sources = [HERE / source, *kept]

    def hosts(self, room: pathlib.Path) -> list[pathlib.Path]:
        """The host, and on x86 the one with plain moves."""
        sources = [*self.sources, *sorted((HERE / "out" / self.package).glob("*.o"))]
        orders = [[], [PLAIN]] if platform.machine() == "x86_64" else [[]]
        built = [live.built(room, f"host{len(order)}", COMPILERS, *self.flags, *order, sources=sources, libraries=self.libraries) for order in orders]
        if None in built:
            raise live.LeftOut("there is no C compiler")
        return built


def said_by(host: pathlib.Path, words: list[str]) -> str:
    """What a host prints; where it doesn't end its processes are ended."""
    command = [host, *words]
    process = subprocess.Popen(command, stdin=subprocess.DEVNULL, stdout=subprocess.PIPE, stderr=subprocess.PIPE, text=True, start_new_session=True)
    try:
        said, wrong = process.communicate(timeout=SECONDS)
    except subprocess.TimeoutExpired:
        os.killpg(process.pid, signal.SIGKILL)
        said, wrong = process.communicate()
        wrong += f"it didn't end in {SECONDS} seconds\n"
    if process.returncode or wrong:
        raise Difference(f"status {process.returncode}\n{said}{wrong}")
    return said


def words_of_guest(chance: random.Random) -> list[str]:
    """What a guest's host is told: of a disk of up to 32 parts of up to 88 sectors, how many requests of how many sectors, and how."""
    has_delays, sectors, depth = chance.random() < 0.25, chance.choice([1, 8, 88]), chance.choice([1, 8, 32, 32])
    requests = chance.choice([20, 200, 2000] if has_delays else [20, 2000, 20000]) // (4 if sectors == 88 else 1)
    words = ["--requests", str(requests), "--depth", str(depth), "--sectors", str(sectors)]
    return [*words, *["--delays"] * has_delays, *["--read-only"] * (chance.random() < 0.15)]


def run_guests(name: str, about: str | None, runs: int, ends: Ends, guest: Callable) -> int:
    """Builds, runs each guest by its seed, and says what was done; `guest` runs a host with words, counts, and raises what is wrong."""
    words = words_of(name, about)
    words.add_argument("runs", type=number(1), nargs="?", default=runs)
    words.add_argument("seed", type=number(0), nargs="?", default=1)
    asked = words.parse_args()
    made = subprocess.run([HERE / "build", ends.package], stdout=subprocess.DEVNULL)
    if made.returncode:
        return made.returncode
    counts, differences = collections.Counter(), 0
    with tempfile.TemporaryDirectory() as room:
        try:
            hosts = ends.hosts(pathlib.Path(room))
        except live.LeftOut as why:
            print(f"{name}: {why}", file=sys.stderr)
            return 3
        for seed in range(asked.seed, asked.seed + asked.runs):
            chance = random.Random(seed)
            host, told = chance.choice(hosts), [*words_of_guest(chance), "--seed", str(seed)]
            try:
                guest(host, told, chance, counts)
            except Difference as difference:
                differences += 1
                print(f"seed {seed}: {' '.join(told)}: {difference}")
            counts["guests with plain moves"] += host != hosts[0]
            counts["with delays"] += "--delays" in told
            counts["read-only"] += "--read-only" in told
    print(f"{asked.runs} guests: " + ", ".join(f"{count} {what}" for what, count in counts.items()) + f"; {differences} differences")
    return 1 if differences else 0
