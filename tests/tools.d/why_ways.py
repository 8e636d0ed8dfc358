"""Tests of ways out: each is followed to the letter, as it is told, and the program accepts the rule that then stands
there, which is the one that was meant."""
import re
import shlex
import subprocess
import sys
import tempfile
import tomllib
from pathlib import Path

from gmr.books import Book, Rule, read_book
from gmr.maps import read_map
from gmr.program import answer
from gmr.unfolding import unfold
from gmr.matches import find_candidate
from gmr.why.edits import ask_faults, rule_lines
from gmr.why.lines import Line, tell_line
from gmr.why.texts import tell_text
from gmr.why.ways import find_ways, tell_way

ROOT = Path(__file__).resolve().parents[2]
CASES = tomllib.loads(Path(__file__).with_suffix(".toml").read_text(encoding="utf-8"))


def book_of(case: dict[str, str], sides: str) -> Book:
    """The book of a case, with the rule that has these sides."""
    return read_book(f"book 2 dim 2 {case.get('embeds', '')} rule r {sides}")


def follow(rule: Rule, told: str) -> str:
    """The text that comes of a rule's by doing what a way says, and nothing else."""
    lines = list(rule_lines(rule, "r"))
    cut = lines.index("right")
    sides = {"left": lines[lines.index("left") + 1:cut], "right": lines[cut + 1:]}
    for part in re.sub(r" \([^()]*\)$", "", told).split("; "):
        side = part.split()[2]
        for step in part.split(" ", 3)[3].split(", "):
            quoted = [re.findall("`([^`]*)`", some) for some in step.split(" in the place of ")]
            come = quoted[0] if not step.startswith("leave out") else []
            gone = quoted[1] if len(quoted) > 1 else [] if come else quoted[0]
            for line in gone:
                sides[side].remove(line)
            sides[side] = come + sides[side] if "<" in "".join(come) else sides[side] + come
    head = lines[:lines.index("left")]
    return "\n".join([*head, "left", *in_order(sides["left"]), "right", *in_order(sides["right"])])


def in_order(lines: list[str]) -> list[str]:
    """The lines of a side, nodes first."""
    return sorted(lines, key=lambda line: not re.match(r"\w+ <", line))


def key(rule: Rule) -> list[object]:
    """What a rule says, whatever the order of its lines is."""
    links = [sorted((*sorted((one, other)), label) for one, label, other in some)
             for some in (rule.left_links, rule.right_links)]
    nodes = [(node.name, str(node.left), str(node.right), str(node.sets), node.hook) for node in rule.nodes]
    return [sorted(nodes), links]


def test_ways_are_followed_to_the_letter() -> None:
    """Each case is refused as it says; the way that it names, followed, gives the rule that is wanted."""
    for name, case in CASES.items():
        book = book_of(case, case["sides"])
        rule = book.rules[0]
        assert ask_faults(book, [rule]) == [case["fault"]], name
        ways = find_ways(book, rule, case["fault"])
        told = [tell_way(rule, way) for way in ways]
        assert [way.letters for way in ways] == sorted(way.letters for way in ways), (name, told)
        assert ask_faults(book, [way.rule for way in ways]) == [None] * len(ways), (name, told)
        assert len(ways) >= case["way"], (name, told)
        head = f"book 2 dim 2 {case.get('embeds', '')} "
        mended = read_book(head + follow(rule, told[case["way"] - 1]))
        assert ask_faults(mended, mended.rules) == [None], (name, told)
        wanted = book_of(case, case["wanted"]).rules[0]
        assert key(mended.rules[0]) == key(wanted), (name, told)


def test_the_flip_flips() -> None:
    """The mended flip makes of two triangles the two that the library's makes."""
    folder = ROOT / "examples" / "operations" / "dimension2" / "flip_edge"
    amap = read_map((folder / "before.gmap").read_text(encoding="latin-1"))
    hook = int((folder / "script.gscript").read_text(encoding="latin-1").split("apply flip_edge ")[1].split()[0])
    library = read_book((folder.parent.with_suffix(".gbook")).read_text(encoding="latin-1"))
    own = next(rule for rule in library.rules if rule.name == "flip_edge")
    mended = book_of(CASES["flip"], CASES["flip"]["wanted"]).rules[0]
    one, other = (unfold(find_candidate(rule, amap, [hook])) for rule in (own, mended))
    assert one.alpha == other.alpha != amap.alpha


def test_an_unsewing_at_a_free_dart() -> None:
    """It is said which dart is free along 3; and at the dart that is offered the line is done."""
    folder = ROOT / "examples" / "operations" / "dimension3"
    amap = read_map((folder / "unsew_along_3_3d" / "before.gmap").read_text(encoding="latin-1"))
    book = read_book((ROOT / "examples" / "operations" / "dimension3.gbook").read_text(encoding="latin-1"))
    rule = next(rule for rule in book.rules if rule.name == "unsew_along_3_3d")
    free = next(dart for dart in amap.darts if amap.alpha[3][dart] == dart)
    said = tell_line(Line(amap, book, rule, (free,), (), "no-match same a 0 b 0".split()))
    assert said[0] == f"Dart {free} is free along 3, where the rule needs a neighbour.", said
    offered = re.search(r"lies at dart (\d+)", said[-1])
    assert offered, said
    with tempfile.TemporaryDirectory() as name:
        script = Path(name, "a.gscript")
        script.write_text(f"apply unsew_along_3_3d {offered[1]}\n", encoding="ascii")
        files = [folder / "unsew_along_3_3d" / "before.gmap", folder.with_suffix(".gbook"), script]
        status, report = answer("run", *files, Path(name, "out.gmap"))
        assert status == 0 and report.startswith("1 unsew_along_3_3d done"), report


def test_files_and_numbers_that_are_others() -> None:
    """A book where a map is needed, and a decimal point."""
    said = tell_text("MAP", "a.gbook", "book 1 dim 1", 0)
    assert said[-1] == "a.gbook is a book, and a map is needed here: the files go MAP BOOK SCRIPT.", said
    assert tell_text("SCRIPT", "a", "gmap 1", 0)[-1].startswith("a is a map, and a script is needed here"), said
    assert tell_text("BOOK", "a", "apply r 0", 0)[-1].startswith("a is a script, and a book is needed here"), said
    said = tell_text("MAP", "a.obj", "# a cube\nv 0 0 0", 9)
    assert said[-1] == "If it is a mesh, `tools/mesh import a.obj MAP` makes a map of it.", said
    text = "apply lift 0 with 1.5"
    assert "A decimal point stands here, and numbers are whole" in tell_text("SCRIPT", "a", text, text.index("."))[-1]


def test_embeddings_that_an_import_makes() -> None:
    """The commands that are named are followed to the letter: the map of a cube that each makes agrees with the book."""
    schemas = [("embed pos <1 2> vec3 embed paint <0 1> rgb", ["--paint R G B"]),
               ("embed pos <1 2> vec3 embed near <> vec3", ["--embed 'near <> vec3'"]),
               ("embed pos <1 2> vec3 embed paint <0 1> rgb embed near <> vec3 embed w <0 2> int",
                ["--paint R G B --embed 'near <> vec3' --embed 'w <0 2> int'"]),
               ("embed near <> vec3 embed pos <1 2> vec3", []), ("embed paint <1 2> rgb", [])]
    with tempfile.TemporaryDirectory() as name:
        files = {role: str(Path(name, f"a {end}")) for role, end in
                 (("MAP", "map.gmap"), ("BOOK", "book.gbook"), ("SCRIPT", "script.gscript"))}
        Path(files["SCRIPT"]).touch()
        for schema, options in schemas:
            Path(files["BOOK"]).write_text(f"book 1 dim 2 {schema} rule r left right", encoding="ascii")
            Path(files["MAP"]).write_text("gmap 1 dim 2 embed n <1 2> int darts 0", encoding="ascii")
            said = told_by_why(files)
            commands = re.findall("`(tools/mesh [^`]*)`", said)
            assert [one.split("MAP ", 1)[1] for one in commands[1:]] == options, said
            for command in commands:
                words = [str(ROOT / "tools" / "mesh") if word == "tools/mesh" else
                         {"MODEL": str(ROOT / "examples" / "cube.obj"), "MAP": files["MAP"], "R": "90", "G": "140",
                          "B": "200"}.get(word, word) for word in shlex.split(command)]
                subprocess.run([sys.executable, *words], check=True, capture_output=True)
                assert told_by_why(files).startswith("nothing is refused"), (command, told_by_why(files))


def told_by_why(files: dict[str, str]) -> str:
    """What tools/why prints for a map, a book and a script."""
    command = [sys.executable, ROOT / "tools" / "why", *files.values()]
    return subprocess.run(command, capture_output=True, text=True, check=False).stdout
