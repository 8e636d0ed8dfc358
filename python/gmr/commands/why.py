"""Runs a script by the program, and says why each line that is refused is refused; where a file is at fault or a rule
isn't accepted, it says why, where, and how to mend it."""
import argparse
import tempfile
from collections.abc import Sequence
from pathlib import Path

from gmr.books import read_book
from gmr.commands.frame import new_parser, run_command
from gmr.errors import Fault
from gmr.maps import Map, load_map
from gmr.places import read_bytes, tell_place, tokens_from
from gmr.program import answer
from gmr.scripts import Outcome, is_in_group, read_report
from gmr.why.books import tell_twice, tell_type, tell_unknown
from gmr.why.lines import Line, plural, tell_line
from gmr.why.maps import tell_agree, tell_map
from gmr.why.refused import tell_rules
from gmr.why.scripts import Prefixes, tell_script
from gmr.why.texts import tell_limit, tell_text

FILES = ("MAP", "BOOK", "SCRIPT")
EXAMPLES = """examples:
  tools/why map.gmap book.gbook script.gscript
  tools/why map.gmap book.gbook script.gscript --line 3 --draw met.svg
  tools/why book.gbook

The status is 0 where nothing is refused, and 1 where something is. The program is $GMR, or that of this checkout."""
USAGE = """%(prog)s [-h] [--line N] [--most N] [--draw OUT] MAP BOOK SCRIPT
       %(prog)s MAP
       %(prog)s [--example FOLDER] BOOK"""


def tell_file(role: str, files: dict[str, str], fault: list[str], folder: Path | None) -> list[str]:
    """Why a file stands for no map, no book or no script."""
    path, text, kind = files[role], read_bytes(files[role]), fault[0]
    if kind == "text":
        return tell_text(role, path, text, int(fault[1]))
    if kind == "limit":
        return tell_limit(path, text, fault[1], int(fault[2]))
    if kind == "rule":
        return tell_rules(path, folder)
    if kind == "twice":
        return tell_twice(path, text, int(fault[1]))
    if role == "MAP":
        return tell_map(path, text, fault)
    if role == "BOOK":
        return (tell_unknown if kind == "unknown" else tell_type)(path, text, int(fault[1]))
    return tell_script(path, text, read_book(read_bytes(files["BOOK"])), kind, int(fault[1]))


def tell_load(path: str) -> list[str]:
    """Why a file can't be read."""
    if not Path(path).exists():
        return [f"There is no file {path}."]
    return [f"{path} is a folder." if Path(path).is_dir() else f"{path} can't be read."]


def tell_refusal(line: str, files: dict[str, str], folder: Path | None) -> list[str]:
    """Why the program refused before it ran anything, by the line that it printed. Examples go into the folder."""
    _, what, *fault = line.split() + [""]
    if what == "load":
        return tell_load(files[fault[0]])
    if what == "size":
        return [f"{files.get(fault[0], 'The map that is left')} is longer than the 268,435,456 bytes that the "
                "program takes."]
    if what == "agree":
        return tell_agree(load_map(files["MAP"]), read_book(read_bytes(files["BOOK"])), files["BOOK"])
    return tell_file(what, files, fault[:-1], folder) if what in FILES else []


class Run:
    """A run of a script some of whose lines are refused."""

    def __init__(self, files: dict[str, str], report: str, folder: Path) -> None:
        self.files, self.text = files, read_bytes(files["SCRIPT"])
        self.book = read_book(read_bytes(files["BOOK"]))
        self.prefixes = Prefixes(files["MAP"], files["BOOK"], self.text, folder)
        self.outcomes: list[Outcome] = read_report(report, self.prefixes.statements)

    def refused(self) -> list[int]:
        """The statements that are refused, from 0."""
        return [at for at, (word, rest) in enumerate(self.outcomes)
                if word == "refused" or self.prefixes.statements[at].word == "each" and rest.split()[2] != "0"]

    def tell(self, at: int, most: int) -> tuple[list[str], Map]:
        """Why a statement is refused, and the map that it met; of an `each` this many applications at most."""
        statement, cause = self.prefixes.statements[at], self.outcomes[at].rest
        place = tell_place(self.files["SCRIPT"], self.text, statement.begin, statement.end)
        amap = self.prefixes.run_to(at)
        if statement.word == "each":
            count, refused = self.prefixes.run_apart(at, most)
            lines = [f"line {at + 1} refused at {count} {plural(count, 'dart')}", *place]
            for dart, words, met in refused:
                lines += [f"At dart {dart} refused: {' '.join(words)}", *self.tell_application(at, met, (dart,), words)]
            return lines, amap
        lines = [f"line {at + 1} refused: {cause}", *place]
        if statement.word == "apply":
            lines += self.tell_application(at, amap, statement.hooks, cause.split())
            return lines + self.tell_around(at, cause.split()), amap
        return lines + [f"No line before it is done that `{statement.word}` could "
                        + ("take back." if statement.word == "undo" else "bring again: no `undo` stands directly "
                                                                         "before it.")], amap

    def tell_around(self, at: int, cause: list[str]) -> list[str]:
        """What the lines around an application have to do with its refusal."""
        statements, lines = self.prefixes.statements, []
        if cause[0] == "no-dart":
            line = self.prefixes.find_removing_line(at, statements[at].hooks[int(cause[2])], self.outcomes)
            lines += [f"Line {line + 1} removed it." if line is not None else ""]
        if is_in_group(statements, at):
            lines.append("It stands in a group: what is left of the group is skipped, and its `end` takes back what "
                         "was done.")
        return [line for line in lines if line]

    def tell_application(self, at: int, amap: Map, hooks: tuple[int, ...], cause: list[str]) -> list[str]:
        """Why an application of a statement's rule is refused."""
        statement = self.prefixes.statements[at]
        rule = next(rule for rule in self.book.rules if rule.name == statement.rule)
        return tell_line(Line(amap, self.book, rule, hooks, statement.values, cause))


def draw(amap: Map, out: str, folder: Path) -> None:
    """Draws the map by tools/draw, which is loaded here alone: it takes longer than all the rest."""
    from gmr.commands.draw import main as draw_maps
    path = folder / "met.gmap"
    path.write_text(amap.text(), encoding="ascii")
    try:
        draw_maps([str(path), out])
    except ValueError as error:
        raise Fault(f"{out} wasn't drawn: {error}") from error


def tell_run(words: argparse.Namespace, files: dict[str, str], report: str, folder: Path) -> None:
    """Prints why the lines of a run are refused."""
    run = Run(files, report, folder)
    refused = [at for at in run.refused() if words.line in (None, at + 1)]
    if words.line and not refused:
        raise Fault(f"line {words.line} isn't refused")
    for place, at in enumerate(refused[:words.most]):
        lines, amap = run.tell(at, words.most)
        print("\n".join(([""] if place else []) + lines))
        if words.draw and place == 0:
            draw(amap, words.draw, folder)
    if len(refused) > words.most:
        print(f"\n{len(refused) - words.most} more lines are refused; --line N tells of one, --most N of more")


def tell_files(files: dict[str, str], words: argparse.Namespace) -> int:
    """Runs the script, prints why what is refused is refused, and gives the status."""
    with tempfile.TemporaryDirectory(prefix="gmr-why-") as name:
        folder = Path(name)
        status, report = answer("run", *files.values(), folder / "out.gmap")
        if status == 0:
            print(f"nothing is refused: {report.splitlines()[-1]}")
        elif status == 1:
            tell_run(words, files, report, folder)
        else:
            tell_answer(status, report, files, words.example)
    return min(status, 1)


def tell_one_file(path: str, folder: Path | None) -> int:
    """Prints why a map or a book alone is refused, or rules of the book, and gives the status."""
    tokens = tokens_from(read_bytes(path), 0, 1) if Path(path).is_file() else []
    role = "BOOK" if tokens and tokens[0].word == "book" else "MAP"
    status, said = answer("check" if role == "BOOK" else "show", path)
    if status == 0:
        print("nothing is refused")
    elif status == 1:
        print("\n".join(tell_rules(path, folder)))
    else:
        tell_answer(status, said, {role: path}, folder)
    return min(status, 1)


def tell_answer(status: int, said: str, files: dict[str, str], folder: Path | None) -> None:
    """Prints the line by which the program refused a file, and why."""
    line = said.partition("\n")[0] or f"the program ended with status {status} and printed nothing"
    print("\n".join([line, *tell_refusal(line, files, folder)]))


def parse_arguments(given: Sequence[str]) -> argparse.Namespace:
    """The arguments of the command line."""
    parser = new_parser("why", __doc__, EXAMPLES, USAGE)
    parser.add_argument("files", metavar="FILE", nargs="+",
                        help="a map, a book and a script, as of `gmr run`; or a map, or a book, alone")
    parser.add_argument("--line", type=int, metavar="N", help="this line of the script alone, counted from 1")
    parser.add_argument("--most", type=int, default=10, metavar="N",
                        help="this many lines at most, and this many darts of an each (10)")
    parser.add_argument("--draw", metavar="OUT", help="draw the map that the first of these lines met, by tools/draw")
    parser.add_argument("--example", metavar="FOLDER", type=Path,
                        help="write into this folder, for each rule that isn't accepted and would break a map, this "
                        "map, its script, what would come of it, and a picture of both")
    words = parser.parse_args(given)
    if len(words.files) not in (1, len(FILES)):
        parser.error("give a map, a book and a script, or one file")
    return words


def main(given: Sequence[str]) -> int:
    """Says what is refused, and why."""
    words = parse_arguments(given)
    if len(words.files) == 1:
        return tell_one_file(words.files[0], words.example)
    return tell_files(dict(zip(FILES, words.files)), words)


def run() -> int:
    """Does what the command line asks for; the status."""
    return run_command("why", main)
