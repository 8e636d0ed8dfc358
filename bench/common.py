"""What the programs of this folder share: their help, the program that they time, and what a run takes."""
import os
import subprocess
import sys
import time
from typing import NamedTuple

ROOT = os.path.dirname(os.path.dirname(os.path.abspath(__file__)))


class Spent(NamedTuple):
    """What a run took: processor seconds, MiB of memory at most, seconds by the clock; and its status."""

    seconds: float
    memory: float
    clock: float
    status: int


def tell_help(text: str) -> None:
    """Prints the help and ends, where --help is asked for."""
    if {"--help", "-h"} & set(sys.argv[1:]):
        print(text)
        sys.exit(0)


def choose_program(words: "list[str]") -> str:
    """The program that is named first, or by $GMR, or else that of this checkout; none is built here."""
    program = words[0] if words else os.environ.get("GMR") or os.path.join(ROOT, "crates/gmr/out/gmr")
    if not os.access(program, os.X_OK):
        sys.exit(f"{os.path.basename(sys.argv[0])}: {program} isn't there: ./gmr builds it, or $GMR names another")
    return os.path.abspath(program)


def timed(words: "list[str]", out: "str | None" = None, may_fail: bool = False) -> Spent:
    """What a run takes, whose output goes to a file or nowhere. AssertionError where it fails and may not."""
    began = time.monotonic()
    with open(out or os.devnull, "wb") as printed:
        child = subprocess.Popen(words, stdout=printed)
        _, raw, usage = os.wait4(child.pid, 0)
    child.returncode = status = os.waitstatus_to_exitcode(raw)
    assert may_fail or status == 0, f"{words}: status {status}"
    return Spent(usage.ru_utime + usage.ru_stime, usage.ru_maxrss / 1024, time.monotonic() - began, status)
