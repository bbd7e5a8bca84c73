"""The words of a script's command line."""

import argparse
import io
import os
import pathlib
import sys
from collections.abc import Callable, Iterable

TOP = pathlib.Path(__file__).resolve().parent.parent
PROGRAM = TOP / "crates" / "blkring" / "out" / "blkring"


def words_of(name: str, about: str | None) -> argparse.ArgumentParser:
    """A parser whose `--help` says what the script says at its head; a wrong word is status 2, with the usage line."""
    return argparse.ArgumentParser(prog=name, description=about, formatter_class=argparse.RawDescriptionHelpFormatter)


def number(least: int) -> Callable[[str], int]:
    """The type of a word that is a decimal number, `least` or more."""

    def read(text: str) -> int:
        if not text.isascii() or not text.isdigit() or int(text) < least:
            raise argparse.ArgumentTypeError(f"{text!r} is no number from {least} on")
        return int(text)

    return read


def program(text: str) -> pathlib.Path:
    """The type of a word that names a program that can be run."""
    path = pathlib.Path(text).resolve()
    if not path.is_file():
        raise argparse.ArgumentTypeError(f"there is no program {text}")
    return path


def tell(lines: Iterable[str]) -> int:
    """Prints lines, and answers the status; whoever stops to read them is no failure."""
    try:
        if isinstance(sys.stdout, io.TextIOWrapper):
            sys.stdout.reconfigure(encoding="utf-8")
        for line in lines:
            print(line)
        sys.stdout.flush()
    except BrokenPipeError:
        os.dup2(os.open(os.devnull, os.O_WRONLY), sys.stdout.fileno())
    return 0


def comparison(name: str, about: str | None, what: str, count: int) -> tuple[int, int, pathlib.Path]:
    """The words of a comparison: how many, the first seed, and the program."""
    words = words_of(name, about)
    words.add_argument(what, type=number(1), nargs="?", default=count)
    words.add_argument("seed", type=number(0), nargs="?", default=1)
    words.add_argument("program", type=pathlib.Path, nargs="?", default=PROGRAM)
    asked = words.parse_args()
    return getattr(asked, what), asked.seed, asked.program.resolve()


def timing(name: str, about: str | None, runs: int) -> argparse.ArgumentParser:
    """The words of a measurement: the program and how often it is run."""
    words = words_of(name, about)
    words.add_argument("program", type=program, nargs="?", default=str(PROGRAM))
    words.add_argument("runs", type=number(1), nargs="?", default=runs)
    return words


def known_program(asked: pathlib.Path | None) -> pathlib.Path | None:
    """The program that was asked for, that BLKRING names, that is built, or that is kept unproved (tools/unproved); none of these: none."""
    named = os.environ.get("BLKRING")
    kept = sorted((TOP / "tools" / "out").glob("blkring-*[0-9a-f]"))
    candidates = [asked, pathlib.Path(named).resolve() if named else None, PROGRAM, *kept]
    return next((it for it in candidates if it is not None and it.is_file()), None)
