"""Makes a rule of an example: a map before an operation and a map after it.

A dart that has the same name in both maps stays; the others go or come. The rule is folded from the example, the
program accepts it, and a run of the program makes the map after of the map before, but for the names of new darts.
Then the book and its script are printed, and the status is 0. Where no rule makes it one line says so, and the status
is 1."""
import argparse
import re
import sys
from collections.abc import Sequence

from gmr.books import RESERVED
from gmr.commands.frame import new_parser, run_command
from gmr.files import write_whole
from gmr.infer.inference import Further, infer, write_book
from gmr.infer.example import Example, NoRule, compare
from gmr.infer.search import Candidate
from gmr.maps import load_map
from gmr.progress import tell

EXAMPLES = """examples:
  tools/infer before.gmap after.gmap
  tools/infer before.gmap after.gmap before2.gmap after2.gmap
  tools/infer before.gmap after.gmap --hook 4 --orbit '0 1' --name raise_face --out rule.gbook rule.gscript"""


def read_name(text: str) -> str:
    """The name of a rule."""
    if not re.fullmatch(r"[A-Za-z][A-Za-z0-9_]{0,31}", text) or text in RESERVED:
        raise argparse.ArgumentTypeError(f"'{text}' is no name of a rule")
    return text


def read_words(words: Sequence[str]) -> argparse.Namespace:
    """The command line."""
    parser = new_parser("infer", __doc__, EXAMPLES)
    parser.add_argument("maps", metavar="MAP", nargs="+", help="the map before and the map after, and so on: further "
                        "pairs are further examples of the same operation")
    parser.add_argument("--hook", type=int, metavar="D", help="the dart of BEFORE that is the first hook")
    parser.add_argument("--orbit", metavar="LABELS", help="the labels that are walked from the hook, as '0 1'")
    parser.add_argument("--name", type=read_name, default="operation", help="the name of the rule (operation)")
    parser.add_argument("--also", nargs=3, action="append", default=[], metavar=("BEFORE", "AFTER", "D"),
                        help="a further example of the same operation, and the darts of its hooks, as '4' or '0 5'")
    parser.add_argument("--verbose", action="store_true",
                        help="tell of each orbit that is tried and doesn't fold, and where it breaks")
    parser.add_argument("--out", nargs=2, metavar=("BOOK", "SCRIPT"), help="files for the book and its script")
    asked = parser.parse_args(words)
    if len(asked.maps) % 2:
        parser.error("give two maps for each example, before and after")
    return asked


def read_orbit(example: Example, orbit: str | None) -> list[tuple[int, ...]] | None:
    """The set of labels along which the example is to be folded, or None for all sets."""
    if orbit is None:
        return None
    if not all(len(label) == 1 and label in "0123456789" for label in orbit.split()):
        raise NoRule(f"the orbit '{orbit}' isn't labels with blanks between, as '0 1'")
    word = tuple(map(int, orbit.split()))
    if len(set(word)) < len(word) or not set(word) <= set(range(example.before.dimension + 1)):
        raise NoRule(f"the orbit '{orbit}' has a label twice or one above the dimension")
    return [word]


def read_further(further: list[list[str]]) -> list[Further]:
    """The further examples, each with the darts of its hooks."""
    found: list[Further] = []
    for before, after, hooks in further:
        try:
            darts = tuple(map(int, hooks.split()))
        except ValueError:
            raise NoRule(f"the hooks '{hooks}' aren't names of darts with blanks between") from None
        found.append((compare(load_map(before), load_map(after)), darts))
    return found


def tell_broken(line: str) -> None:
    """Tells on standard error of an orbit that doesn't fold."""
    print(f"infer: {line}", file=sys.stderr)


def write_rule(book: str, script: str, files: list[str] | None, reads: Sequence[str]) -> None:
    """Writes the book and its script into the files, or else to standard output, the script as comments."""
    if files is None:
        print(book + "".join(f"# {line}\n" for line in script.splitlines()), end="")
        return
    for path, text in zip(files, (book, script)):
        write_whole(path, text, reads)


def main(words: Sequence[str]) -> None:
    """Reads the maps, and prints the rule or why there is none."""
    asked = read_words(words)
    example, *others = [compare(load_map(before), load_map(after))
                        for before, after in zip(asked.maps[::2], asked.maps[1::2])]
    further: list[Further] = [*read_further(asked.also), *((other, None) for other in others)]
    orbits = read_orbit(example, asked.orbit)
    reads = [*asked.maps, *(path for pair in asked.also for path in pair[:2])]
    none: NoRule | None = None
    tell("looking for a rule")
    try:
        candidate: Candidate | None = infer(example, further, orbits, asked.hook, asked.name, tell,
                                            tell_broken if asked.verbose else None)
    except NoRule as fault:
        candidate, none = fault.candidate, fault
    if candidate is not None:
        write_rule(write_book(example, candidate, asked.name), candidate.script(asked.name), asked.out, reads)
    if none is not None:
        raise none


def run() -> int:
    """Does what the command line asks for; the status."""
    return run_command("infer", main)
