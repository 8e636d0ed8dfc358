"""Why a script doesn't stand under its book, and which map each of its lines meets."""
import difflib
from pathlib import Path

from gmr.books import Book, Rule
from gmr.expressions import show
from gmr.maps import WIDTHS, Map, Value
from gmr.places import tell_place
from gmr.program import answer
from gmr.scripts import Outcome, Statement, read_script, text_before
from gmr.why.lazy import LazyMap


def tell_script(path: str, text: str, book: Book, kind: str, place: int) -> list[str]:
    """Why a line of a script disagrees with the book."""
    line = next(line for line in read_script(text) if line.begin <= place < line.end)
    lines = tell_place(path, text, place, line.end if kind != "unknown-rule" else place + len(line.rule))
    names = [rule.name for rule in book.rules]
    if kind == "unknown-rule":
        near = difflib.get_close_matches(line.rule, names, 1)
        return lines + [f"The book has no rule {line.rule}; it has {', '.join(names) or 'none'}."] + (
            [f"Did you mean `{near[0]}`?"] if near else [])
    rule = next(rule for rule in book.rules if rule.name == line.rule)
    return lines + (tell_hooks(rule, line) if kind == "hook-count" else tell_params(rule, line))


def tell_hooks(rule: Rule, line: Statement) -> list[str]:
    """A line has another number of hooks than its rule."""
    hooks = [node.name for node in rule.nodes if node.hook]
    if line.word == "each":
        return [f"`each` needs a rule with one hook, and {rule.name} has {len(hooks)}."]
    return [f"{rule.name} has {len(hooks)} {'hook' if len(hooks) == 1 else 'hooks'}"
            + (f" ({', '.join(hooks)})" if hooks else "") + f", and the line gives {len(line.hooks)} "
                                                            f"{'dart' if len(line.hooks) == 1 else 'darts'}. Give "
                                                            "one dart for each hook, in this order."]


def tell_params(rule: Rule, line: Statement) -> list[str]:
    """A line's values aren't those of its rule's parameters."""
    wanted = ", ".join(f"{name}: {kind}" for name, kind in rule.params)
    said = f"{rule.name} has {f'the parameters ({wanted})' if wanted else 'no parameters'}"
    if len(line.values) != len(rule.params):
        return [f"{said}, and the line gives {len(line.values)} {'value' if len(line.values) == 1 else 'values'} "
                "after `with`."]
    for (name, kind), value in zip(rule.params, line.values):
        if not fits(kind, value):
            is_triple = isinstance(value, tuple) and len(value) == 3
            return [f"{said}, and the line gives {show(value)} for {name}"
                    + (": a colour's parts are 0 to 255." if kind == "rgb" and is_triple else ".")]
    return [f"{said}, and the line's values are others."]


def fits(kind: str, value: Value) -> bool:
    """Whether a value is one of a kind."""
    if kind in ("int", "bool"):
        return isinstance(value, int) and isinstance(value, bool) == (kind == "bool")
    is_colour = kind != "rgb" or isinstance(value, tuple) and all(0 <= part <= 255 for part in value)
    return isinstance(value, tuple) and len(value) == WIDTHS[kind] and is_colour


class Prefixes:
    """The maps that the lines of a script meet, each made by a run of the lines before it."""

    def __init__(self, amap: str, book: str, text: str, folder: Path) -> None:
        self.book, self.text, self.folder = book, text, folder
        self.statements = read_script(text)
        self.kept: tuple[int, LazyMap] | None = None
        self.start = folder / "start.gmap"
        answer("migrate", amap, self.start)     # the second version keeps the next name
        self.first: LazyMap | None = None

    def run(self, text: str) -> tuple[list[str], LazyMap]:
        """The report of a script's text, and the map that it leaves, of which rows are read when they are asked for."""
        script, out = self.folder / "before.gscript", self.folder / "before.gmap"
        script.write_bytes(text.encode("latin-1"))
        _, said = answer("run", self.start, self.book, script, out)
        return said.splitlines(), LazyMap(out.read_text(encoding="ascii"))

    def run_to(self, at: int) -> LazyMap:
        """The map that a statement meets. The lines before it are run once, as long as no other but the first is asked
        for."""
        if at == 0:
            self.first = self.first or LazyMap(self.start.read_text(encoding="ascii"))
            return self.first
        if self.kept is None or self.kept[0] != at:
            self.kept = at, self.run(text_before(self.text, self.statements, at))[1]
        return self.kept[1]

    def run_apart(self, at: int, most: int) -> tuple[int, list[tuple[int, list[str], Map]]]:
        """How many applications of an `each` are refused, and of the first of them the dart, the words of the cause,
        and the map that it met."""
        each, before = self.statements[at], text_before(self.text, self.statements, at)
        values = f" with {' '.join(map(show, each.values))}" if each.values else ""
        leads = [orbit[0] for orbit in self.run_to(at).whole().orbits(each.labels)]
        lines = [f"\napply {each.rule} {lead}{values}" for lead in leads]
        said = [line.split() for line in self.run(before + "".join(lines))[0][-1 - len(leads):-1]]
        refused = [place for place, words in enumerate(said) if words[2] == "refused" and words[3] != "no-dart"]
        return len(refused), [(leads[place], said[place][3:], self.run(before + "".join(lines[:place]))[1])
                              for place in refused[:most]]

    def find_removing_line(self, at: int, dart: int, outcomes: list[Outcome]) -> int | None:
        """The line, from 0, that removed a dart which was there at the start and isn't there at a statement."""
        if dart not in self.run_to(0).alpha[0] or dart in self.run_to(at).alpha[0]:
            return None
        lines = [line for line in range(at) if may_remove(self.statements[line], outcomes[line])]
        least, greatest = 0, len(lines) - 1
        while least < greatest:
            middle = (least + greatest) // 2
            if dart in self.run_to(lines[middle] + 1).alpha[0]:
                least = middle + 1
            else:
                greatest = middle
        return lines[least]


def may_remove(statement: Statement, outcome: Outcome) -> bool:
    """Whether darts may have gone by a statement: by an application that says so, or by what isn't one."""
    return statement.word != "apply" or outcome.word == "done" and outcome.rest.split()[-1] != "0"
