"""Asks the program about rules that are being made: whether it accepts them, and whether they make the map after."""
import tempfile
from collections.abc import Sequence
from pathlib import Path

from gmr import program
from gmr.infer.draft import Draft, book_text
from gmr.infer.example import Example
from gmr.maps import Embed, Map, read_map

MOST_RULES = 256


def ask_faults(dimension: int, embeds: Sequence[Embed], drafts: Sequence[Draft]) -> list[str | None]:
    """For each draft the first fault that the program finds in it, or None where it accepts the rule."""
    faults: list[str | None] = []
    for first in range(0, len(drafts), MOST_RULES):
        rules = [draft.text(f"r{at}") for at, draft in enumerate(drafts[first : first + MOST_RULES])]
        with tempfile.TemporaryDirectory() as folder:
            book = Path(folder, "rules.gbook")
            book.write_text(book_text(dimension, embeds, rules), encoding="ascii")
            status, lines = program.answer("check", book)
        if status not in (0, 1):
            raise program.Refused(lines.strip(), status)
        for line in lines.splitlines()[:-1]:
            words = line.split(" ", 3)
            faults.append(None if words[2] == "accepted" else words[3])
    return faults


def script_text(name: str, lines: Sequence[Draft]) -> str:
    """The script that applies the rule at the hooks of each draft."""
    return "".join(" ".join(["apply", name, *map(str, draft.hooks())]) + "\n" for draft in lines)


def certify(example: Example, book: str, script: str, lines: Sequence[Draft]) -> str | None:
    """Why the program doesn't make the map after by this book and script, or None where it does.

    The drafts are the same rule, each with the darts that it has in the example where its line is applied. What
    comes of the run must be the map after, where each new dart takes the place of the draft's own."""
    with tempfile.TemporaryDirectory() as folder:
        files = [Path(folder, name) for name in ("before.gmap", "rule.gbook", "lines.gscript", "out.gmap")]
        for file, text in zip(files, (example.before.text(), book, script)):
            file.write_text(text, encoding="ascii")
        status, report = program.answer("run", *files)
        if status != 0:
            return report.splitlines()[0] if report else f"the program ended with status {status}"
        made = read_map(files[-1].read_text(encoding="ascii"))
    return difference(made, example.after, names_of_new(example.before.next, lines))


def names_of_new(first: int, lines: Sequence[Draft]) -> dict[int, int]:
    """For each name that the program gives a new dart, the dart of the map after that stands for it."""
    names: dict[int, int] = {}
    name = first
    for draft in lines:
        for node in draft.nodes:
            if node.left is None:
                names.update(zip(range(name, name + len(node.darts)), node.darts))
                name += len(node.darts)
    return names


def difference(made: Map, after: Map, names: dict[int, int]) -> str | None:
    """How the map that was made differs from the map after under the new names, or None."""
    renamed = {dart: names.get(dart, dart) for dart in made.darts}
    if sorted(renamed.values()) != after.darts:
        return "the darts aren't those of the map after"
    for label, step in enumerate(made.alpha):
        for dart, near in step.items():
            if after.alpha[label][renamed[dart]] != renamed[near]:
                return f"dart {renamed[dart]} has another neighbour along {label}"
    for name, values in made.values.items():
        for dart, value in values.items():
            if after.values[name][renamed[dart]] != value:
                return f"dart {renamed[dart]} has another value of {name}"
    return None
