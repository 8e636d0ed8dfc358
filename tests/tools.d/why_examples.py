"""Tests of the maps that refused rules would break: a stored one for each kind of fault, and random rules."""
import subprocess
import sys
import tempfile
import tomllib
from collections import Counter
from collections.abc import Iterator
from pathlib import Path

from gmr.books import Book, Rule, read_book
from gmr.maps import read_map
from gmr.matches import find_candidate, is_match
from gmr.program import answer
from gmr.scripts import read_script
from gmr.unfolding import first_breach, first_value_breach, unfold
from gmr.why.counterexample import Search, search
from gmr.why.derived import derive, is_safe, with_steps
from gmr.why.edits import ask_faults
from gmr.why.example import script_text, tell_breach, text_after
from gmr.why.verdict import tell_search

HERE = Path(__file__).resolve().parent
WHY = HERE.parents[1] / "tools" / "why"
CASES = tomllib.loads(Path(__file__).with_suffix(".toml").read_text(encoding="utf-8"))


def book_of(case: dict[str, str]) -> Book:
    """The book with the rule of a case."""
    return read_book(f"book 2 dim 2 {case.get('embeds', '')} rule r {case['sides']}")


def said_of(command: str, text: str) -> str:
    """The first line that the program prints for a file with this text."""
    with tempfile.TemporaryDirectory() as folder:
        path = Path(folder, "file")
        path.write_text(text, encoding="ascii")
        return answer(command, path)[1].splitlines()[0]


def test_every_case_is_found_and_broken() -> None:
    """The search finds the stored map; the reference unfolding of it breaks the law; and the program refuses the map
    that would come, and takes the one before."""
    for name, case in CASES.items():
        book = book_of(case)
        rule = book.rules[0]
        assert ask_faults(book, [rule]) == [case["fault"]], name
        found = search(rule, 2, book.embeds, case["fault"]).found
        assert found is not None, name
        assert found.candidate.map.text() == case["map"], (name, found.candidate.map.text())
        assert script_text(found) == case["script"], (name, script_text(found))
        assert case["told"] in tell_breach(found), (name, tell_breach(found))
        assert said_of("show", case["map"]) == "gmap 1", name
        assert said_of("show", text_after(found)) == f"refused MAP {case['refused']}", (name, text_after(found))


def test_the_stored_maps_are_broken_by_the_unfolding_alone() -> None:
    """From the stored texts, without the search: the left side lies at the hooks, and what comes breaks a law."""
    for name, case in CASES.items():
        book, amap = book_of(case), read_map(case["map"])
        found = find_candidate(book.rules[0], amap, list(read_script(case["script"])[0].hooks))
        assert is_match(found), name
        result = unfold(found)
        breaches = [first_breach(result)]
        if breaches == [None]:
            breaches = [first_value_breach(found, result, embed) for embed in book.embeds]
        assert any(breaches), name


def test_accepted_rules_break_nothing() -> None:
    """Of the library's rules, all accepted, none breaks the map before that it is shown on."""
    tried = 0
    for script in sorted((HERE.parents[1] / "examples" / "operations").glob("dimension*/*/script.gscript")):
        statement = read_script(script.read_text(encoding="latin-1"))[0]
        book = read_book(script.parents[1].with_suffix(".gbook").read_text(encoding="latin-1"))
        rule = next(rule for rule in book.rules if rule.name == statement.rule)
        amap = read_map(script.with_name("before.gmap").read_text(encoding="latin-1"))
        if statement.word != "apply" or not set(statement.hooks) <= set(amap.darts):
            continue
        found = find_candidate(rule, amap, list(statement.hooks))
        if is_match(found):
            tried += 1
            assert first_breach(unfold(found)) is None, script
    assert tried > 90, tried


def rules_of(name: str) -> Iterator[tuple[Book, Rule, str]]:
    """The rules of a stored book, each with its fault."""
    book = read_book((HERE / name).read_text(encoding="ascii"))
    faults = [line.split(" ", 3)[3] for line in answer("check", HERE / name)[1].splitlines()[:-1]]
    yield from ((book, rule, fault) for rule, fault in zip(book.rules, faults))


def test_random_rules() -> None:
    """Of 400 random rules that are refused for an arc or a square, 349 would break a map that is found, and the program
    refuses what would come. Of the 51 others it is derived that they can't: 14 lie in no map, and 37 break none; of
    these 25 are accepted once what follows from their left sides is written on both sides, and of the rest 3 lie over
    some orbits alone."""
    tally: Counter[tuple[str, str]] = Counter()
    darts = 0
    for name in ("refused2a.gbook", "refused2b.gbook", "refused3.gbook"):
        for book, rule, fault in rules_of(name):
            found = search(rule, book.dimension, book.embeds, fault)
            tally[fault[:3], verdict(book, rule, fault, found)] += 1
            darts += len(found.found.candidate.map.darts) if found.found else 0
    assert tally == {("arc", "breaks"): 250, ("arc", "nowhere"): 5, ("arc", "implied"): 2, ("squ", "breaks"): 99,
                     ("squ", "nowhere"): 9, ("squ", "implied"): 23, ("squ", "bound"): 3, ("squ", "safe"): 9}, tally
    assert darts == 1038, darts     # of all these maps, each as small as it was found


def verdict(book: Book, rule: Rule, fault: str, found: Search) -> str:
    """What comes of a rule in one word, which is what is told."""
    said, derived = " ".join(tell_search(rule, book.dimension, fault, found)), derive(rule, book.dimension)
    if found.found:
        assert said.startswith("Applied to"), said
        assert said_of("show", text_after(found.found)).startswith("refused MAP "), said
        assert derived is not None and not is_safe(derived), said
        return "breaks"
    assert found.is_whole, said
    if derived is None:
        assert not found.fitting and "lies in no map" in said and "a dart has one neighbour along" in said, said
        return "nowhere"
    assert found.fitting and is_safe(derived) and "in a map of whatever size" in said, said
    if ask_faults(book, [with_steps(rule, derived.steps())]) == [None]:
        return "implied"
    return "bound" if any(place != other for place, other in derived.place_for.items()) else "safe"


def test_accepted_rules_are_safe() -> None:
    """Of each rule of the library, all accepted, it is derived that it breaks no law of neighbours."""
    rules = 0
    for path in sorted((HERE.parents[1] / "examples" / "operations").glob("*.gbook")):
        book = read_book(path.read_text(encoding="latin-1"))
        for rule in book.rules:
            derived = derive(rule, book.dimension)
            assert derived is not None and is_safe(derived), rule.name
            rules += 1
    assert rules > 180, rules


def test_two_values_behind_a_square() -> None:
    """Of a rule that breaks no law of neighbours it is looked at what it does to values."""
    sides = ("left a <> hook b <> c <> hook a -0- b b -2- b a -1- a c -1- c "
             "right a <> b <> c <> a -0- a b -0- b b -2- b a -1- c")
    book = read_book(f"book 2 dim 2 embed n <1 2> int rule r {sides}")
    assert ask_faults(book, book.rules) == ["square a 0 2"]
    derived, found = derive(book.rules[0], 2), search(book.rules[0], 2, book.embeds, "square a 0 2").found
    assert derived is not None and is_safe(derived)
    assert found is not None and "with two values of n" in tell_breach(found), found


def test_the_rules_that_the_model_works_through() -> None:
    """Each is refused for the square that stands there, and breaks no map."""
    section = (HERE.parents[1] / "docs" / "MODEL.md").read_text(encoding="utf-8").split("## Refused rules\n")[1]
    section = section.split("\n## ")[0]
    rules = [line.strip() for line in section.splitlines() if line.startswith("    rule ")]
    faults = [part.split("`")[0] for part in section.split("`check` says `")[1:]]
    assert len(rules) == len(faults) == 3
    for text, fault in zip(rules, faults):
        book = read_book(f"book 2 dim {2 if '0 2' in fault else 3} {text}")
        assert ask_faults(book, book.rules) == [fault], text
        found = search(book.rules[0], book.dimension, [], fault)
        assert not found.found and found.fitting and found.is_whole, text


def test_an_example_is_written() -> None:
    """Map, script, what would come and a picture stand in the folder that is asked for."""
    with tempfile.TemporaryDirectory() as name:
        folder = Path(name, "broken")
        command = [sys.executable, WHY, "--example", folder, HERE.parents[1] / "examples" / "mistakes.gbook"]
        done = subprocess.run(command, capture_output=True, text=True, check=False)
        assert done.returncode == 1 and not done.stderr, done.stderr
        files = {path.name for path in folder.iterdir()}
        assert files == {f"{rule}{end}" for rule in ("crossed", "cut_off", "lost_label")
                         for end in (".gmap", ".gscript", "_after.gmap", ".svg")}, files
        assert "#e11d48" in (folder / "crossed.svg").read_text(encoding="utf-8")
        assert answer("show", folder / "crossed_after.gmap")[1] == "refused MAP cycle dart 2 labels 0 2\n"
