"""Tests of tools/why: a case for every cause and every fault that the program can report (why.toml), and others."""
import re
import subprocess
import sys
import tempfile
import tomllib
from collections.abc import Callable, Iterator
from pathlib import Path
from typing import NamedTuple

from gmr.books import read_book
from gmr.commands.why import Run
from gmr.maps import read_map
from gmr.program import answer
from gmr.scripts import STATEMENTS
from gmr.why.lazy import LazyMap
from gmr.why.lines import Line, tell_line
from gmr.why.texts import LIMITS

ROOT = Path(__file__).resolve().parents[2]
WHY = ROOT / "tools" / "why"

CASES = tomllib.loads(Path(__file__).with_suffix(".toml").read_text(encoding="utf-8"))
SQUARE, EDGE, HEAD, SPLIT, PAIR = (CASES["texts"][name] for name in ("SQUARE", "EDGE", "HEAD", "SPLIT", "PAIR"))


class Case(NamedTuple):
    """A run that is refused: its texts, the line of the program, and parts of what must be said."""
    map: str
    book: str
    script: str
    line: str
    said: list[str]


def why(*texts: str, options: tuple[str, ...] = ()) -> tuple[int, str]:
    """The status of tools/why for these texts, and what it prints."""
    with tempfile.TemporaryDirectory() as folder:
        names = []
        for name, text in zip(("a.gmap", "a.gbook", "a.gscript"), texts):
            path = Path(folder, name)
            path.write_bytes(text.encode("latin-1"))
            names.append(str(path))
        done = subprocess.run([sys.executable, WHY, *names, *options], capture_output=True, text=True, check=False,
                              timeout=60)
    assert not done.stderr, done.stderr
    return done.returncode, done.stdout


def check(case: Case) -> None:
    """Tells of a case, and looks for the program's line and each part."""
    status, said = why(case.map, case.book, case.script)
    assert status == 1, f"status {status}"
    for part in (case.line, *case.said):
        assert part in said, f"{part!r} isn't in {said!r}"


def whole(text: str) -> str:
    """A text of the cases, with the named texts in it."""
    return text.format_map(CASES["texts"])


def cases() -> Iterator[tuple[str, Case]]:
    """All cases, by name."""
    for name, case in CASES["cause"].items():
        yield f"cause_{name}", Case(whole(case["map"]), whole(case["book"]), case["script"], case["line"], case["said"])
    for name, case in CASES["rule"].items():
        has_values = re.search(r"\bn\b", case["fault"]) is not None
        amap = f"gmap 1 dim 2 {'embed n <1 2> int ' if has_values else ''}darts 0"
        book = whole("{MARKS}" if has_values else "{HEAD}") + "rule r " + case["sides"]
        yield f"rule_{name}", Case(amap, book, "", f"rule r refused {case['fault']}", ["    1 | ", *case["said"]])
    for role in ("MAP", "BOOK", "SCRIPT"):
        for name, case in CASES[role].items():
            text, fault = whole(case["text"]), case["fault"]
            texts = {"MAP": EDGE, "BOOK": SPLIT, "SCRIPT": "", role: text.replace("^", "")}
            line = f"refused {role} {fault.replace('^', str(text.find('^')))}"
            yield f"{role.lower()}_{name}", Case(*texts.values(), line, case["said"])
    for name, case in CASES["agree"].items():
        yield f"agree_{name}", Case(whole(case["map"]), whole(case["book"]), "", "refused agree", case["said"])


def made(case: Case) -> Callable[[], None]:
    """A test of a case."""
    return lambda: check(case)


globals().update({f"test_{name}": made(case) for name, case in cases()})


def test_cause_full_darts() -> None:
    """A map of as many darts takes long to read, so the line is told without a run."""
    book = read_book(PAIR)
    line = Line(read_map("gmap 1 dim 2 darts 0"), book, book.rules[0], (), (), "full-darts live 1048575 more 2".split())
    assert "1048577 are 1 more than the 1,048,576 that a map can have" in tell_line(line)[0]


def first_words(section: str) -> set[str]:
    """The first words of what the first column of a section's tables of FORMATS has in code."""
    text = (ROOT / "docs" / "FORMATS.md").read_text(encoding="utf-8").split(f"## {section}\n")[1].split("\n## ")[0]
    columns = re.findall(r"^\| (`[^|]*`) \|", text, re.MULTILINE)
    return {code.split()[0] for column in columns for code in re.findall(r"`([^`]*)`", column)}


def test_every_fault_and_cause_has_a_case() -> None:
    """What FORMATS lists as causes and faults has a case here; limits are the words of one fault."""
    sections = ["The lines of a check", "The report of a run"]
    sections += [f"Why a text stands for no {role}" for role in ("map", "book", "script")]
    listed = set().union(*map(first_words, sections)) - STATEMENTS
    faults = [case["fault"] for table in ("rule", "MAP", "BOOK", "SCRIPT") for case in CASES[table].values()]
    causes = [case["line"].split("refused: ")[-1] for case in CASES["cause"].values()]
    covered = {said.split()[0] for said in faults + causes} | {"full-darts", "nothing-to-undo", "nothing-to-redo"}
    assert listed and not listed - covered - set(LIMITS), listed - covered - set(LIMITS)


def test_every_limit_is_told() -> None:
    """Each word of a limit that the formats have is told."""
    text = (ROOT / "docs" / "FORMATS.md").read_text(encoding="utf-8")
    assert all(f"`{word}`" in text for word in LIMITS)


def test_params_of_another_kind() -> None:
    """A value of another kind, and a colour out of range."""
    book = HEAD + "rule r(c: rgb) left a <> hook right a <>"
    said = why(SQUARE, book, "apply r 0 with (0 0 256)")[1]
    assert "the line gives (0 0 256) for c: a colour's parts are 0 to 255" in said, said
    assert "(c: rgb), and the line gives 7 for c." in why(SQUARE, book, "apply r 0 with 7")[1]


def test_nothing_is_refused() -> None:
    """Where nothing is refused the status is 0."""
    assert why(EDGE, SPLIT, "apply split 0") == (0, "nothing is refused: applied 1 refused 0 darts 4 next 4\n")


def test_all_rules_are_told() -> None:
    """Each rule that isn't accepted is told, and not the first alone."""
    said = why("gmap 1 dim 2 darts 0", (ROOT / "examples" / "mistakes.gbook").read_text(), "")[1]
    assert said.count("\nrule ") == 8, said


def test_lines_are_chosen() -> None:
    """One line of several, and as many as are asked for."""
    script = "apply split 7\napply split 0\napply split 8\napply split 9"
    said = why(EDGE, SPLIT, script, options=("--line", "3"))[1]
    assert said.startswith("line 3 refused") and "dart 7" not in said, said
    assert "2 more lines are refused" in why(EDGE, SPLIT, script, options=("--most", "1"))[1]


def test_one_file() -> None:
    """A book, or a map, alone."""
    for name, status, part in (("mistakes.gbook", 1, "rule crossed refused square b 0 2"), ("sew.gbook", 0, "nothing"),
                               ("torn.gmap", 1, "they have (0 11) and (0 10)"), ("edge.gmap", 0, "nothing"),
                               ("roof/second.gbook", 1, "line 12, column 18"), ("none.gmap", 1, "There is no file")):
        done = subprocess.run([sys.executable, WHY, ROOT / "examples" / name], capture_output=True, text=True,
                              check=False)
        assert done.returncode == status and part in done.stdout and not done.stderr, (name, done)


def test_a_file_that_is_missing() -> None:
    """A file that can't be read."""
    done = subprocess.run([sys.executable, WHY, "/none", "/none", "/none"], capture_output=True, text=True, check=False)
    assert done.returncode == 1 and done.stdout == "refused load MAP\nThere is no file /none.\n", done


def test_the_map_is_that_before_the_line() -> None:
    """The map is the one that the line met, with the names of new darts, also where names were removed before."""
    book = SPLIT + " rule merge left b <1> hook a <_> a -0- b right a <0>"
    said = why(EDGE, book, "apply split 0 apply merge 2 apply split 0 apply split 2")[1]
    assert "next name is 6" not in said and "no dart has that name; the nearest ones are 1 and 4" in said, said


def test_the_line_that_removed_a_dart() -> None:
    """A dart that a line before took away is said to be removed by that line."""
    book = "book 1 dim 1 rule drop left a <0> hook a -1- a right"
    two_edges = "gmap 1 dim 1 darts 4 0 1 0 1 0 1 2 3 2 3 2 3"
    said = why(two_edges, book, "apply drop 2 apply drop 0 apply drop 3")[1]
    assert "and the map is empty" in said and "Line 1 removed it." in said, said


def test_few_prefixes_are_run() -> None:
    """Of the lines before a refused one those that removed nothing aren't looked at, and nothing is run for the map at
    the start: so one line that could have removed a dart is found by the one run to where it is missing."""
    book = ("book 1 dim 1 rule drop left a <0> hook a -1- a right "
            "rule cut left a <> hook b <> a -0- b right a <> b <> a -0- a b -0- b")
    edges = "gmap 1 dim 1 darts 6 0 1 0 1 0 1 2 3 2 3 2 3 4 5 4 5 4 5"
    with tempfile.TemporaryDirectory() as folder:
        files = {role: str(Path(folder, role)) for role in ("MAP", "BOOK", "SCRIPT")}
        texts = edges, book, "apply cut 0 apply cut 4 apply drop 2 apply drop 2 apply drop 7 apply drop 3"
        for path, text in zip(files.values(), texts):
            Path(path).write_text(text, encoding="ascii")
        run = Run(files, answer("run", *files.values(), Path(folder, "out"))[1], Path(folder))
        runs: list[str] = []
        before = run.prefixes.run
        run.prefixes.run = lambda text: (runs.append(text), before(text))[1]    # type: ignore[method-assign]
        said = {at: run.tell(at, 1)[0] for at in run.refused()}
    assert said[3][-1] == said[5][-1] == "Line 3 removed it." and "next name is 6" in said[4][-1], said
    assert len(runs) == 3, runs


def check_if_known(script: str, parts: list[str]) -> None:
    """Looks for the parts in what is said of a script, unless the program doesn't know a statement of it."""
    said = why(EDGE, SPLIT + " rule free left a <> hook a -1- a right a <> a -1- a", script)[1]
    missing = [part for part in parts if part not in said]
    assert not missing or "refused SCRIPT text" in said, (missing, said)


def test_undo_and_groups() -> None:
    """Lines that take back and bring again, and groups, where the program has them."""
    check_if_known("undo group apply split 0 apply split 9 apply split 0 end redo", [
        "line 1 refused: nothing-to-undo", "line 4 refused: no-dart hook 0", "It stands in a group",
        "next name is 4", "line 7 refused: nothing-to-redo"])


def test_each() -> None:
    """A line that goes over orbits, where the program has it: which of its darts are refused, and why."""
    check_if_known("apply split 0 each <1> free", [
        "line 2 refused at 1 dart\n", "At dart 2 refused: no-match arc a 0 1"])


def test_library() -> None:
    """Each line of the library's scripts that is refused is explained, and where a label leads elsewhere the two darts
    differ."""
    explained = 0
    for script in sorted((ROOT / "examples" / "operations").glob("*/*/script.gscript")):
        files = {"MAP": str(script.with_name("before.gmap")), "BOOK": f"{script.parents[1]}.gbook"}
        files["SCRIPT"] = str(script)
        with tempfile.TemporaryDirectory() as folder:
            status, report = answer("run", *files.values(), Path(folder, "out.gmap"))
            assert status in (0, 1), script
            run = Run(files, report, Path(folder))
            for at in run.refused():
                said = " ".join(run.tell(at, 1)[0][4:])
                darts = re.search(r"leads to dart (\d+).*needs dart (\d+)", said)
                assert said and (darts is None or darts[1] != darts[2]), (script, said)
                explained += 1
    assert explained > 70, explained


def test_a_map_of_which_rows_are_read_when_they_are_asked_for() -> None:
    """It has the darts, neighbours and values of the whole map, and no others."""
    text = answer("show", ROOT / "examples" / "operations" / "values2" / "kis_from_centre" / "before.gmap")[1]
    whole_map, lazy = read_map(text), LazyMap(text)
    assert list(lazy.darts) == whole_map.darts and len(lazy.darts) == len(whole_map.darts)
    assert (lazy.darts[-1], lazy.next, lazy.embeds) == (whole_map.darts[-1], whole_map.next, whole_map.embeds)
    for dart in range(-1, whole_map.next + 2):
        assert (dart in lazy.alpha[0]) == (dart in whole_map.alpha[0]), dart
    for dart in whole_map.darts:
        assert [step[dart] for step in lazy.alpha] == [step[dart] for step in whole_map.alpha], dart
        assert all(lazy.values[embed.name][dart] == whole_map.values[embed.name][dart] for embed in lazy.embeds), dart


def test_names_of_darts_with_gaps() -> None:
    """Where names are left out they are read from the text, whatever their length is; and a map may be empty."""
    text = answer("show", ROOT / "examples" / "square.gmap")[1]
    names = [3, 12, 105, 106, 1000, 1048575, 2097152, 2097153]
    gaps = re.sub(r"(?<=darts 8\n)[^$]*", lambda rows: "".join(
        " ".join(str(names[int(word)]) for word in row.split()) + "\n" for row in rows[0].splitlines()), text)
    lazy = LazyMap(gaps)
    assert (list(lazy.darts), lazy.next, lazy.alpha[0][1000]) == (names, 2097154, 1048575), gaps
    empty = LazyMap("gmap 2\ndim 2\nnext 7\ndarts 0\n")
    assert (list(empty.darts), empty.next) == ([], 7)


def test_a_picture() -> None:
    """The map that a line met is drawn where it is asked for."""
    with tempfile.TemporaryDirectory() as folder:
        picture = Path(folder, "met.svg")
        why(EDGE, SPLIT, "apply split 9", options=("--draw", str(picture)))
        assert "<svg" in picture.read_text(encoding="utf-8")
