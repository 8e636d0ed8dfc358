"""Tests of tools/book, on small books of the examples and on books that are made here."""
import subprocess
import sys
import tempfile
from pathlib import Path

from gmr import program
from gmr.books import load_book, read_book, split_book

ROOT = Path(__file__).resolve().parents[2]
FIRST = """# Of corners.
book 2
dim 2
embed pos <1 2> vec2   # where a corner lies
embed paint <0 1> rgb

# Moves a corner.
# It goes by v.
rule move(v: vec2) left a <1 2> hook right a <1 2> with pos = a.pos + v # here
rule lift left a <1 2> hook
right a <1 2> with pos = a.pos + vec2(0, 1)
# The end.
"""
SECOND = ("book 1 dim 2 embed paint <0 1> rgb embed pos <2 1> vec2 "
          "rule wash left a <0 1> hook right a <0 1> with paint = rgb(9, 9, 9)\n")
UNFINISHED = "rule later left a <0 1> hook right a <0 _> with\n"


def book(*words: str | Path, files: dict[str, str] | None = None) -> tuple[int, str, str]:
    """The status of tools/book in a folder with these files, its output, and what it says of faults."""
    with tempfile.TemporaryDirectory() as folder:
        for name, text in (files or {}).items():
            (Path(folder) / name).write_text(text, encoding="latin-1")
        command = [sys.executable, ROOT / "tools" / "book", *words]
        done = subprocess.run(command, cwd=folder, capture_output=True, text=True, check=False)
        return done.returncode, done.stdout, done.stderr


def equal(got, wanted) -> None:
    """Raises where two things differ."""
    if got != wanted:
        raise AssertionError(f"{got!r} comes, and not {wanted!r}")


def test_a_book_falls_into_its_rules():
    head, rules = split_book(FIRST)
    equal(head, FIRST[: FIRST.index("# Moves")])
    equal([name for name, _ in rules], ["move", "lift"])
    equal(rules[0][1], FIRST[FIRST.index("# Moves") : FIRST.index("\nrule lift")])
    equal(rules[1][1], FIRST[FIRST.index("rule lift") : -1])


def test_every_book_of_the_examples_is_read_as_the_program_prints_it():
    for path in sorted((ROOT / "examples").glob("**/*.gbook")):
        status, printed = program.answer("book", path)
        if status == 0:
            names = [line.split()[1].split("(")[0] for line in printed.splitlines() if line.startswith("rule ")]
            loaded = load_book(path)
            equal([rule.name for rule in loaded.rules], names)
            equal(read_book(printed)[:3], loaded[:3])


def test_nodes_links_and_expressions_are_read():
    rule = next(rule for rule in load_book(ROOT / "examples/points.gbook").rules if rule.name == "sew")
    a, b = rule.nodes
    equal((a.left, a.right, a.sets, a.hook), ((0,), (0,), {"pos": "a.pos"}, True))
    equal((b.left, b.right, b.sets, b.hook), ((0,), (0,), {}, True))
    equal((rule.left_links, rule.right_links), ([("a", 2, "a"), ("b", 2, "b")], [("a", 2, "b")]))


def test_books_are_joined_with_their_comments():
    files = {"first.gbook": FIRST, "second.gbook": "# Of faces.\n" + SECOND}
    status, printed, said = book("join", "first.gbook", "second.gbook", "--order", "paint pos", files=files)
    equal((status, said), (0, ""))
    wanted = "# Of corners.\n# where a corner lies\nbook 2\ndim 2\nembed paint <0 1> rgb\nembed pos <1 2> vec2\n\n"
    equal(printed, wanted + FIRST[FIRST.index("# Moves") : FIRST.index("rule lift")] + "\n"
          + FIRST[FIRST.index("rule lift") :] + "\n# Of faces.\n\n" + SECOND[SECOND.index("rule") :])


def test_what_cannot_be_joined_is_one_line():
    files = {"first.gbook": FIRST, "second.gbook": SECOND, "flat.gbook": "book 1 dim 2", "line.gbook": "book 1 dim 1"}
    lines = {
        "first.gbook second.gbook":
            "second.gbook has the embeddings of first.gbook in another order: say one by --order",
        "first.gbook first.gbook": "the rule move comes twice: in first.gbook and in first.gbook",
        "flat.gbook line.gbook": "flat.gbook is of dimension 2, and line.gbook of dimension 1",
        "flat.gbook none.gbook": "none.gbook: No such file or directory",
        "flat.gbook flat.gbook --order pos": "the embeddings are none, and not pos",
    }
    for words, line in lines.items():
        equal(book("join", *words.split(), files=files), (1, "", f"book: {line}\n"))
    status, printed, said = book("join", "flat.gbook", "second.gbook", files=files)
    equal((status, printed, said.endswith(", and flat.gbook hasn't\n")), (1, "", True))


def test_a_book_is_taken_for_a_script_without_its_unfinished_rules():
    files = {"all.gbook": FIRST + UNFINISHED, "go.gscript": "apply lift 3 # up\napply lift 4 apply lift 5"}
    status, printed, said = book("take", "all.gbook", "go.gscript", files=files)
    equal((status, said), (0, ""))
    equal(printed, FIRST[: FIRST.index("# Moves")] + FIRST[FIRST.index("rule lift") : FIRST.index("# The end")])
    with tempfile.TemporaryDirectory() as folder:
        path = Path(folder) / "used.gbook"
        path.write_text(printed, encoding="latin-1")
        equal(program.answer("check", path), (0, "rule lift accepted\nrules 1 refused 0\n"))


def test_what_cannot_be_taken_is_one_line():
    scripts = {"go.gscript": "apply lift 3\n\napply sink 4\n", "odd.gscript": "apply lift 3\nlift 4\n"}
    files = {"all.gbook": FIRST, **scripts}
    equal(book("take", "all.gbook", "go.gscript", files=files),
          (1, "", "book: all.gbook has no rule sink, which line 3 of go.gscript names\n"))
    equal(book("take", "all.gbook", "odd.gscript", files=files),
          (1, "", "book: odd.gscript, line 2: no script goes on with what stands there\n"))
    equal(book("take", "all.gbook", files=files)[0], 2)
    equal(book("take", "all.gbook", "--rules", "move", files=files)[0], 0)
    equal(book("--help")[0], 0)
