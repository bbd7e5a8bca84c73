"""Times the built program on a schedule, with and without `--moves`, over real files.

The moves are the `m` lines of the report with `--moves`; the time is that of the process, from its start to its end. The image is a new
file without blocks: one that was just written in one piece lies in large pieces of the system's memory, and a write of a sector into such
a piece takes Linux some five times as long, whatever program makes it.
"""

import os
import pathlib
import subprocess
import sys
import tempfile
import time

sys.path.insert(0, str(pathlib.Path(__file__).resolve().parent.parent / "tools"))
from words import timing  # noqa: E402

SECTORS = 4096


def settled(submissions):
    """The schedule of these submissions, a ring's worth at a time, each settled."""
    lines = ["settle"]
    for number, submission in enumerate(submissions, 1):
        lines.append(f"submit {submission}")
        if number % 32 == 0:
            lines.append("settle")
    return "\n".join(lines + ["settle", ""])


def timed(program, words, room, runs):
    """The seconds of the fastest run, and the peak of its memory in KiB."""
    best = None
    for _ in range(runs):
        with open(room / "schedule") as source, open(room / "report", "w") as report:
            begin = time.perf_counter()
            child = subprocess.Popen([program, "run", "image", *words], cwd=room, stdin=source, stdout=report)
            _, status, usage = os.wait4(child.pid, 0)
            taken = time.perf_counter() - begin
        if status != 0:
            sys.exit(f"the program ended with status {status}")
        best = min(best or (taken, usage.ru_maxrss), (taken, usage.ru_maxrss))
    return best


def main(schedule, about):
    """Runs the program that the command line names on a schedule, as often as it says, and prints what the fastest run took."""
    asked = timing(f"bench/{pathlib.Path(sys.argv[0]).name}", about, 10).parse_args()
    program, runs = asked.program, asked.runs
    with tempfile.TemporaryDirectory(prefix="schedule-times-") as name:
        room = pathlib.Path(name)
        with open(room / "image", "wb") as image:
            image.truncate(SECTORS * 512)
        (room / "schedule").write_text(schedule)
        plain, plain_memory = timed(program, [], room, runs)
        seconds, memory = timed(program, ["--moves"], room, runs)
        lines = moves = 0
        with open(room / "report", "rb") as report:
            for line in report:
                lines += 1
                moves += line.startswith(b"m ")
        print(f"without --moves: {plain:.3f} s, {moves} moves, {moves / plain / 1e6:.1f} million moves a second ({plain / moves * 1e9:.1f} ns a move), {plain_memory} KiB")
        print(f"with --moves: {seconds:.3f} s, {lines} lines, {lines / seconds / 1e6:.2f} million lines a second, {memory} KiB")
