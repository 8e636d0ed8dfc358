"""Runs gmr itself for the package around it, and imports what only some of it needs."""
import importlib
import os
import shutil
import subprocess
from pathlib import Path
from types import ModuleType
from typing import NoReturn

from gmr.errors import UNRUN, Fault, Missing, Refused as Refused, told_with

UNREAD = 3      # the status where a file isn't there or can't be read
CHECKOUT = Path(__file__).resolve().parents[2]


def find_program() -> str:
    """The program that $GMR names, else the one built in this checkout. No tool begins the long proof by itself."""
    named = os.environ.get("GMR")
    if named:
        if shutil.which(named) is None:
            raise Refused(f"{named} can't be run: $GMR names no program", UNRUN)
        return named
    released = CHECKOUT / "program"
    if released.exists():
        return str(released)
    built = CHECKOUT / "crates" / "gmr" / "out" / "gmr"
    if not built.exists():
        raise Refused("the program isn't built: call ./gmr once, which proves and builds it, or name one by $GMR",
                      UNRUN)
    return str(built)


def choose_unproved() -> None:
    """Takes the program that `./gmr --unproved` keeps, which is built within a minute where it isn't there."""
    words = [str(CHECKOUT / "gmr"), "--unproved"]
    if subprocess.run(words, stdout=subprocess.DEVNULL, stdin=subprocess.DEVNULL, check=False).returncode:
        raise Refused("./gmr --unproved has built no program", UNRUN)
    os.environ["GMR"] = str(CHECKOUT / "out" / "unproved" / "gmr")


def is_unproved() -> bool:
    """Whether the program that $GMR names has a record that says so."""
    record = Path(os.environ.get("GMR", "") + ".record")
    return record.is_file() and record.read_text(encoding="utf-8").startswith("built UNPROVED\n")


def ask(*words: str | os.PathLike[str]) -> tuple[int, bytes]:
    """Runs the program with the words: its status, and what it printed.

    Raises Refused where there is no program to run, or where it ended by a signal.
    """
    command = [find_program(), *(os.fspath(word) for word in words)]
    try:
        done = subprocess.run(command, stdout=subprocess.PIPE, stdin=subprocess.DEVNULL, check=False)
    except OSError as error:
        raise Refused(f"{command[0]} can't be run: {error.strerror}", UNRUN) from error
    if done.returncode < 0:
        raise Refused(f"{command[0]} was ended by signal {-done.returncode}", UNRUN)
    return done.returncode, done.stdout


def answer(*words: str | os.PathLike[str]) -> tuple[int, str]:
    """The same as text."""
    status, printed = ask(*words)
    return status, printed.decode("utf-8", "replace")


def bytes_or_refuse(*words: str | os.PathLike[str]) -> bytes:
    """What the program prints for the words; Refused with its own first line where its status isn't 0."""
    status, printed = ask(*words)
    if status:
        raise refusal_of(status, printed.decode("utf-8", "replace"))
    return printed


def put_or_refuse(*words: str | os.PathLike[str]) -> str:
    """The same as text."""
    return bytes_or_refuse(*words).decode("utf-8", "replace")


def bytes_of_file(command: str, path: str | os.PathLike[str]) -> bytes:
    """What the program prints for a command over a file; Refused with its line and the file's name, or OSError where
    the file can't be read."""
    with told_with(path):
        try:
            return bytes_or_refuse(command, path)
        except Refused as refused:
            if refused.status == UNREAD:
                open(path, "rb").close()    # which says why
            raise


def put_of_file(command: str, path: str | os.PathLike[str]) -> str:
    """The same as text."""
    return bytes_of_file(command, path).decode("utf-8", "replace")


def refusal_of(status: int, text: str) -> Refused:
    """The refusal that the program printed, by its first line."""
    line = text.split("\n", 1)[0]
    return Refused(line or f"the program ended with status {status} and printed nothing", status)


def needs(module: str, package: str) -> ModuleType:
    """The module, imported; Missing names the package of Debian that has it, where this interpreter hasn't got it."""
    try:
        return importlib.import_module(module)
    except ModuleNotFoundError as fault:
        top = module.partition(".")[0]
        if fault.name is None or fault.name.partition(".")[0] != top:
            raise
        raise Missing(f"the Python module {top} is missing: apt-get install {package}, or pip install {top}") from None


def fail(line: str) -> NoReturn:
    """Raises the fault that has this line."""
    raise Fault(line)
