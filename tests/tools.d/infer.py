"""Tests of tools/infer: rules made of stored maps of the library and of drawn examples, and what no rule makes."""
import subprocess
import sys
import tempfile
from pathlib import Path

from gmr.books import read_book
from gmr.infer.inference import infer, write_book
from gmr.infer.compare import are_same
from gmr.infer.doubt import constants_in
from gmr.infer.example import NoRule, compare
from gmr.infer.place import draft_of
from gmr.infer.terms import Term, find_expression
from gmr.maps import Map, read_map
from gmr.program import answer

ROOT = Path(__file__).resolve().parents[2]
LIBRARY = ROOT / "examples" / "operations"
DRAWN = ROOT / "examples" / "infer"


def read(path: Path) -> Map:
    """The map of a file."""
    return read_map(path.read_text(encoding="latin-1"))


def run(*words: str) -> tuple[int, str, str]:
    """The status of tools/infer at the top of the checkout, its output, and what it says of faults."""
    done = subprocess.run([sys.executable, "tools/infer", *words], cwd=ROOT, capture_output=True, text=True, check=False)
    return done.returncode, done.stdout, done.stderr


def equal(got, wanted) -> None:
    """Raises where two things differ."""
    if got != wanted:
        raise AssertionError(f"{got!r} comes, and not {wanted!r}")


def made(folder: Path):
    """The rule that comes of the maps of a folder; it is certified, or NoRule is raised."""
    return infer(compare(read(folder / "before.gmap"), read(folder / "after.gmap")))


def test_rules_that_are_the_librarys_own():
    for name in ("dimension1/create_triangle_1d", "dimension1/dual_1d", "dimension2/kis", "dimension2/triangulate_face_2d",
                 "dimension2/contract_edge_2d", "dimension2/insert_edge_2d", "dimension2/connected_sum_2d",
                 "dimension3/split_edge_3d"):
        book, operation = name.split("/")
        rules = read_book((LIBRARY / f"{book}.gbook").read_text(encoding="latin-1")).rules
        own = draft_of(next(rule for rule in rules if rule.name == operation))
        is_same = are_same(own, made(LIBRARY / name).draft)
        # The stored maps of this one triangulate a face and then one of its triangles.
        equal((name, is_same), (name, operation != "triangulate_face_2d"))


def test_a_rule_that_fits_more_maps_than_the_librarys():
    candidate = made(LIBRARY / "dimension2" / "flip_edge")
    equal((len(candidate.draft.nodes), candidate.draft.word), (3, (0, 2)))


def test_values_of_the_library():
    texts = {
        "values2/move_face": "a.pos + vec3(-60, 90, 60)",
        "values2/kis_from_centre": "2 * (sum<0 1>(a.pos) / count<0 1>(a)) - sum<0 1 2>(a.pos) / count<0 1 2>(a)",
        "values3/hexahedra_at_middles": "sum<0 1>(a.pos) / count<0 1>(a)",
        "values2/darken_face": "rgb(red(a.paint) - 60, green(a.paint) - 60, blue(a.paint) - 60)",
    }
    for name, text in texts.items():
        draft = made(LIBRARY / name).draft
        found = [value.format(*draft.names()) for node in draft.nodes for value in node.sets.values()]
        equal((name, text in found), (name, True))


def test_drawn_examples():
    for name in ("inset_turned", "inset_volume", "raise_tent"):
        folder = DRAWN / name
        with tempfile.TemporaryDirectory() as scratch:
            files = [Path(scratch, file) for file in ("rule.gbook", "rule.gscript")]
            words = (folder / "words").read_text().split()
            words = [str(folder / word) if word.endswith(".gmap") else word for word in words]
            maps = [str(folder / file) for file in ("before.gmap", "after.gmap")]
            equal(run(*maps, "--name", name, *words, "--out", *map(str, files)), (0, "", ""))
            for file in files:
                equal((name, file.read_text()), (name, (folder / file.name).read_text()))


def test_several_lines_for_parts_that_nothing_joins():
    two = "gmap 1 dim 1 darts 4 0 1 0 1 0 1 2 3 2 3 2 3"
    cut = "gmap 1 dim 1 darts 4 0 0 0 1 1 1 2 2 2 3 3 3"
    candidate = infer(compare(read_map(two), read_map(cut)))
    equal(candidate.script("cut"), "apply cut 0\napply cut 2\n")


def test_a_context_that_is_needed_is_told():
    folder = DRAWN / "split_edge_at_third"
    book = write_book(compare(read(folder / "before.gmap"), read(folder / "after.gmap")), made(folder), "split")
    equal("# label 2 at b stays as it is: square b 0 2 without it\n" in book, True)


def test_of_the_smallest_rules_the_one_with_the_fewest_free_darts():
    draft = made(DRAWN / "cut_off_corner").draft
    loops = [label for at, node in enumerate(draft.nodes) for label, step in (node.left or {}).items()
             if getattr(step, "node", None) == at]
    equal((draft.word, loops), ((0, 2), []))


def test_a_rule_over_a_whole_grid():
    """Of 200 squares that are triangulated at once the rule has three nodes, and no smaller one is looked for."""
    before = read_map(grid_text(10, 20))
    with tempfile.TemporaryDirectory() as scratch:
        files = [Path(scratch, name) for name in ("a.gmap", "b.gbook", "c.gscript", "d.gmap")]
        files[0].write_text(before.text(), encoding="ascii")
        files[1].write_text("book 1 dim 2 rule k left a <0 1 2> hook right a <0 _ 2> b <_ 2 _> c <1 2 _> a -1- b b -0- c")
        files[2].write_text("apply k 0")
        equal(answer("run", *files)[0], 0)
        after = read(files[3])
    said: list[str] = []
    draft = infer(compare(before, after), tells=said.append).draft
    equal((len(draft.nodes), draft.word, len(said)), (3, (0, 1, 2), 8))


def grid_text(rows: int, columns: int) -> str:
    """Rows of squares, joined along 2."""
    def across(row: int, column: int, place: int) -> int:
        """The dart across from one of a square, or itself at the border."""
        down, right, other = ((-1, 0, 5 - place), (0, 1, 9 - place), (1, 0, 5 - place), (0, -1, 9 - place))[place // 2]
        is_there = 0 <= row + down < rows and 0 <= column + right < columns
        return 8 * ((row + down) * columns + column + right) + other if is_there else 8 * (row * columns + column) + place

    lines = [f"gmap 1 dim 2 darts {8 * rows * columns}"]
    for square in range(rows * columns):
        for place in range(8):
            near = [8 * square + (place ^ 1), 8 * square + (place + (1 if place % 2 else -1)) % 8]
            lines.append(" ".join(map(str, (8 * square + place, *near, across(*divmod(square, columns), place)))))
    return "\n".join(lines)


def test_what_no_rule_makes():
    square, painted = "examples/square.gmap", "examples/painted.gmap"
    cases = [
        ((square, square), "nothing differs between the maps"),
        ((square, painted), "the maps haven't the same embeddings"),
        ((square, "examples/edge.gmap"), "the maps have two dimensions, 2 and 1"),
        ((square, "examples/squares.gmap", "--hook", "99"), "the hook 99 is no dart of the map before"),
        ((square, "examples/squares.gmap", "--orbit", "0 7"),
         "the orbit '0 7' has a label twice or one above the dimension"),
        (("examples/broken.gmap", square), None),
    ]
    for words, line in cases:
        status, text, told = run(*words)
        equal((words, status, text, told.count("\n")), (words, 1, "", 1))
        if line:
            equal((words, told), (words, f"infer: {line}\n"))


def test_an_orbit_that_does_not_fold():
    folder = LIBRARY / "dimension2" / "flip_edge"
    try:
        infer(compare(read(folder / "before.gmap"), read(folder / "after.gmap")), words=[(0, 1)], hook=0)
    except NoRule as none:
        equal(str(none), "the orbit of dart 0 doesn't fold: from node a along 2 in the map before, at position 2 lies the dart "
                         "of another node, which lies otherwise")
    else:
        raise AssertionError("a rule comes")


def test_values_that_are_not_found():
    folder = LIBRARY / "values2" / "catmull_clark_at_points"
    status, text, told = run(str(folder / "before.gmap"), str(folder / "after.gmap"))
    equal((status, told), (1, "infer: a rule folds, but no expression is found for pos at a\n"))
    equal("# pos at a isn't found; at its positions the values are (206 80 216)," in text, True)


def test_books_are_as_the_program_prints_them():
    for name in ("inset_turned", "raise_tent", "cut_off_corner", "split_edge_at_third"):
        book = DRAWN / name / "rule.gbook"
        bare = "".join(line for line in book.read_text().splitlines(keepends=True) if not line.startswith("#"))
        equal(answer("book", book), (0, bare))


def test_expressions():
    left, right, third = Term("{0}.pos", (0, 6, 10, 3)), Term("{1}.pos", (4, 8, 20, 5)), Term("{2}.pos", (70, 1, 2, 90))
    cases = [
        ((5, 5, 7, 7), "vec2(5, 7)"),
        ((4, 8, 20, 5), "{1}.pos"),
        ((3, 9, 10, 3), "{0}.pos + vec2(3, 0)"),
        ((2, 7, 15, 4), "({0}.pos + {1}.pos) / 2"),
        ((1, 6, 13, 3), "(2 * {0}.pos + {1}.pos) / 3"),
        ((-2, 0, -5, 3), "{0}.pos - {1}.pos + vec2(2, 5)"),
        ((24, 5, 10, 32), "({0}.pos + {1}.pos + {2}.pos) / 3"),
        ((1, 100, -3, 77), None),
    ]
    for wanted, text in cases:
        equal((wanted, find_expression("vec2", 2, wanted, [left, right, third])), (wanted, text))
    number = Term("{0}.weight", (3, 5, 8))
    equal(find_expression("int", 1, (2, 3, 4), [number]), "({0}.weight + 1) / 2")
    equal(find_expression("rgb", 3, (1, 2, 3, 4, 5, 6), [number]), None)
    colour = Term("{0}.paint", (200, 9, 80, 100, 30, 31))
    darker = "rgb(red({0}.paint) - 5, green({0}.paint) - 5, blue({0}.paint) - 5)"
    equal(find_expression("rgb", 3, (195, 4, 75, 95, 25, 26), [colour]), darker)
    equal(find_expression("rgb", 3, (195, 4, 75, 95, 25, 27), [colour]), None)
    equal([constants_in(text) for text in (darker, darker.replace("5,", "6,"), "{1}@2.pos + vec2(3, 0)", "2 * {0}.w / 3")],
          [1, 3, 2, 0])


def test_rules_that_differ_are_told_apart():
    rules = read_book("book 1 dim 2 rule r left a <0 1> hook right a <0 _> b <_ 2> c <1 2> a -1- b b -0- c "
                      "rule s left x <1 0> hook right z <2 1> y <2 _> x <_ 0> x -1- y y -0- z "
                      "rule t left a <0 1> hook right a <0 _> b <_ 2> c <2 1> a -1- b b -0- c").rules
    one, same, other = map(draft_of, rules)
    equal((are_same(one, same), are_same(one, other), are_same(other, other)), (True, False, True))
