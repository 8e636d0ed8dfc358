"""What all commands share: how words are read, and the one place where what is raised becomes a line and a status.

The status is 0, 1 for what is refused or can't be done, 2 for wrong words, and 130 for an interrupt."""
import argparse
import os
import sys
from collections.abc import Callable, Sequence
from itertools import takewhile
from typing import NoReturn

from gmr.errors import INTERRUPTED, REFUSED, WRONG_WORDS, Fault
from gmr.program import CHECKOUT, choose_unproved, is_unproved
from gmr.progress import show_progress

# What stands anywhere on the command line of each tool.
SHARED = ("--version", "--quiet", "--unproved")


class Parser(argparse.ArgumentParser):
    """A reader of words that tells a fault of them in one line, under the tool's name, with status 2."""

    def error(self, message: str) -> NoReturn:
        """Ends with the fault of the words."""
        name = self.prog.removeprefix("tools/")
        self.exit(WRONG_WORDS, f"{name}: {message}; {self.prog} --help has more\n")


class Version(argparse.Action):
    """The option that tells the version, which is looked for only then: that takes longer than to read the words."""

    def __init__(self, option_strings: Sequence[str], dest: str, help: str) -> None:
        super().__init__(option_strings, argparse.SUPPRESS, nargs=0, default=argparse.SUPPRESS, help=help)

    def __call__(self, parser: argparse.ArgumentParser, *_: object) -> NoReturn:
        """Prints the version, and ends."""
        print(f"{parser.prog.removeprefix('tools/').split()[0]} of gmr {package_version()}")
        parser.exit()


def new_parser(name: str, description: str | None, examples: str, usage: str | None = None) -> Parser:
    """The parser of a tool's words: with examples after its help, --version, --quiet and --unproved, of which
    `run_command` sees that they can stand anywhere."""
    parser = Parser(f"tools/{name}", usage, description, examples,
                    formatter_class=argparse.RawDescriptionHelpFormatter, allow_abbrev=False)
    parser.add_argument("--version", action=Version, help="show program's version number and exit")
    parser.add_argument("--quiet", action="store_true", help="nothing but what was asked for, and what goes wrong")
    parser.add_argument("--unproved", action="store_true", help="ask the program that `./gmr --unproved` keeps")
    return parser


def with_shared_first(words: Sequence[str]) -> list[str]:
    """The words with the options that all tools share before all else, as a subcommand knows none of them; after `--`
    no word is an option."""
    end = words.index("--") if "--" in words else len(words)
    shared = [word for word in words[:end] if word in SHARED]
    return [*shared, *(word for word in words[:end] if word not in SHARED), *words[end:]]


def package_version() -> str:
    """The version of the package, where it is installed or not."""
    from importlib.metadata import PackageNotFoundError, version    # slow to import

    try:
        return version("gmr")
    except PackageNotFoundError:
        return (CHECKOUT / "python" / "VERSION").read_text(encoding="utf-8").strip()


def run_command(name: str, main: Callable[[Sequence[str]], int | None]) -> int:
    """Runs a command over the words that the process was given: its status, after a line for what goes wrong."""
    words = with_shared_first(sys.argv[1:])
    shared = list(takewhile(SHARED.__contains__, words))
    try:
        if "--unproved" in shared:
            choose_unproved()
        if is_unproved():
            say(name, "what comes is UNPROVED: the program that is asked is a build without proofs")
        with show_progress(name, "--quiet" in shared):
            status = main(words) or 0
        sys.stdout.flush()
        return status
    except KeyboardInterrupt:
        return say(name, "interrupted", INTERRUPTED)
    except BrokenPipeError:     # who reads no further, as `head`, is told nothing
        os.dup2(os.open(os.devnull, os.O_WRONLY), sys.stdout.fileno())
        return REFUSED
    except Fault as fault:
        return say(name, fault.told())
    except OSError as error:
        return say(name, tell_system(error))
    except (ValueError, RecursionError) as fault:
        return say(name, str(fault))
    except MemoryError:
        return say(name, "memory ran out")


def tell_system(error: OSError) -> str:
    """What the system said of a file, with its name."""
    reason = error.strerror or str(error)
    return f"{os.fspath(error.filename)}: {reason}" if error.filename is not None else reason


def say(name: str, line: str, status: int = REFUSED) -> int:
    """Says a line on standard error under a tool's name, and answers the status."""
    print(f"{name}: {' '.join(line.split())}", file=sys.stderr)
    return status
