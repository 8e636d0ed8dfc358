"""Tests of python/gmr/maps.py: texts of maps are read and printed, and orbits walked; and of how the program is run."""
import os
import random
import shutil
import subprocess
import sys
import tempfile
import time
from pathlib import Path

from gmr import maps, program
from gmr.arrays import PIECE, scan_numbers
from gmr.maps import Embed, Map, read_map

ROOT = Path(__file__).resolve().parents[2]
EXAMPLES = ROOT / "examples"
FORMS = """# one dart, written in a way of its own
gmap 02dim 2embed a<2 1>vec2 # a comment ( 1 2
embed darts<>int embed c < 0 1 > rgb
next 5darts 1 00 0 0 0(- 5 003)-2 (1 2 3)#"""


def fault(text: str) -> str:
    """The line with which a text is refused."""
    try:
        read_map(text)
    except ValueError as error:
        return str(error)
    raise AssertionError("it was read")


def test_every_canonical_text_is_read_and_printed():
    paths = sorted(EXAMPLES.glob("operations/*/*/after.gmap"))
    assert len(paths) > 150
    for path in paths:
        assert read_map(path.read_text()).text() == path.read_text(), path
        before = read_map(path.with_name("before.gmap").read_text())
        assert read_map(before.text()) == before, path


def test_what_the_program_prints_is_read_and_printed():
    for path in sorted(EXAMPLES.glob("*.gmap")):
        status, text = program.answer("show", path)
        if status == 0:
            assert read_map(path.read_text()).text() == text and maps.load_map(path).text() == text, path


def test_what_the_program_refuses_is_passed_on():
    try:
        maps.load_map(EXAMPLES / "torn.gmap")
    except program.Refused as refusal:
        assert (str(refusal), refusal.status) == ("refused MAP embedding pos darts 5 6", 4)
    else:
        raise AssertionError("it was loaded")


def test_forms():
    given = read_map(FORMS)
    assert given.embeds == [Embed("a", (1, 2), "vec2"), Embed("darts", (), "int"), Embed("c", (0, 1), "rgb")]
    assert given.values == {"a": {0: (-5, 3)}, "darts": {0: -2}, "c": {0: (1, 2, 3)}} and given.next == 5
    assert given.text() == (
        "gmap 2\ndim 2\nembed a <1 2> vec2\nembed darts <> int\nembed c <0 1> rgb\nnext 5\ndarts 1\n"
        "0 0 0 0 (-5 3) -2 (1 2 3)\n"
    )
    assert read_map("gmap 1 dim 1 darts 2 7 7 3 3 3 7").text() == "gmap 1\ndim 1\ndarts 2\n3 3 7\n7 7 3\n"
    assert (read_map("gmap 1 dim 1 darts 2 7 7 3 3 3 7").next, read_map("gmap 1 dim 1 darts 0").next) == (8, 0)


def test_texts_of_no_map_are_refused():
    opening = "this is no text of a map: it doesn't open with gmap, dim and darts"
    assert fault("") == fault("gmap 1") == fault("book 1 dim 2 darts 0") == opening
    next_name = "a map of version 2 tells its next name, and one of version 1 doesn't"
    assert fault("gmap 3 dim 2 darts 0") == "a map has version 1 or 2, and not 3"
    assert fault("gmap 2 dim 2 darts 0") == fault("gmap 1 dim 2 next 0 darts 0") == next_name
    assert fault("gmap 1 dim 8 darts 0") == "a map has a dimension from 1 to 7, and not 8"
    assert fault("gmap 1 dim 1 darts 1 x") == "after 'darts' stands something other than numbers and parentheses"
    assert fault("gmap 1 dim 1 darts 1 0 0 -") == "a sign stands after 'darts' with no number after it"
    assert fault("gmap 1 dim 1 darts 1 0 0") == "there are 2 numbers after 'darts', and not 3 for each of 1 darts"
    assert fault("gmap 1 dim 1 darts 2 0 0 0 0 0 0") == "two darts have one name"
    assert fault("gmap 1 dim 1 darts 1 0 0 1") == "a neighbour along label 1 is no dart"


def test_numbers_of_all_lengths_are_read():
    chance = random.Random(5)
    ends = [2**63 - 1, -2**63, 0]
    numbers = [sign * chance.randrange(10**length) for length in range(1, 19) for sign in (1, -1) for _ in range(20)]
    numbers = ends + numbers * 40
    text = "".join(chance.choice(("%d ", "(%d ", "%d)", "\n%d\t")) % number for number in numbers)
    assert scan_numbers(text.encode())[0].tolist() == numbers and len(text) > PIECE
    assert scan_numbers(b"000000000000000000000012 7")[0].tolist() == [12, 7]
    for wrong in (b"9223372036854775808", b"-9223372036854775809", b"1 " * 99 + b"9" * 30):
        try:
            scan_numbers(wrong)
        except ValueError as error:
            assert str(error) == "a number doesn't fit in 64 bits"
        else:
            raise AssertionError(wrong)


def test_signs_apart_from_their_digits_are_seen():
    for begin in (0, 1, PIECE - 2, PIECE - 1, PIECE, 2 * PIECE):
        blank = b" " * begin
        for plain in (b"", b"7", b"-7", b"(-7 -8)"):
            assert scan_numbers(blank + plain)[1], (begin, plain)
        for apart in (b"-", b"- 7", b"--7", b"-7 -", b"(-)"):
            assert not scan_numbers(blank + apart)[1], (begin, apart)


def test_orbits():
    square = read_map((EXAMPLES / "square.gmap").read_text())
    assert square.orbit((1, 0), 0) == [0, 1, 7, 2, 6, 3, 5, 4], "the walk of docs/MODEL.md"
    assert square.orbits((1, 2)) == [[0, 7], [1, 2], [3, 4], [5, 6]] == square.cells(0)
    assert square.orbits((0,), [5, 4, 1]) == [[0, 1], [4, 5]] and square.orbits((), [3]) == [[3]]
    painted = read_map((EXAMPLES / "painted.gmap").read_text())
    assert painted.embed_over((2, 1), ("vec2", "vec3")).kind == "vec2" and painted.embed_over((0,), ("int",)) is None


def test_large_maps_take_a_second_or_two():
    # Of the processor, and three times as much where its caches are shared with other work.
    count = 300_000
    darts = list(range(count))
    along = {dart: dart ^ 1 for dart in darts}
    values = {"pos": {dart: (dart, -dart, 5) for dart in darts}}
    given = Map(2, 2, [Embed("pos", (1, 2), "vec3")], count, darts, [along] * 3, values)
    began = time.process_time()
    text = given.text()
    printed = time.process_time()
    assert read_map(text) == given
    read = time.process_time()
    assert printed - began < 6 and read - printed < 9, (printed - began, read - printed)


def test_the_program_that_is_run():
    words = [sys.executable, "-c", "from gmr import program; print(program.find_program())"]

    def found(**more: str) -> str:
        kept = {name: value for name, value in os.environ.items() if name != "GMR"}
        environment = {**kept, "PYTHONPATH": str(ROOT / "python"), **more}
        return subprocess.run(words, capture_output=True, text=True, check=True, env=environment).stdout.strip()

    built = ROOT / "crates" / "gmr" / "out" / "gmr"
    assert found(GMR="/bin/true") == "/bin/true"
    if built.exists():
        assert found() == str(built)


def test_a_program_that_is_not_built():
    with tempfile.TemporaryDirectory() as folder:
        for part in ("tools", "python"):
            shutil.copytree(ROOT / part, Path(folder, part), ignore=shutil.ignore_patterns("__pycache__"))
        environment = {name: value for name, value in os.environ.items() if name != "GMR"}
        words = [sys.executable, Path(folder, "tools", "find"), ROOT / "examples" / "square.gmap", "--list", "2"]
        said = subprocess.run(words, capture_output=True, text=True, check=False, env=environment)
        assert said.returncode == 1 and said.stderr.startswith("find: the program isn't built"), said


def test_a_program_that_is_not_there():
    words = [sys.executable, ROOT / "tools" / "mesh", "export", "a.gmap", "a.obj"]
    environment = {**os.environ, "GMR": "/nowhere/gmr"}
    said = subprocess.run(words, capture_output=True, text=True, check=False, env=environment)
    assert said.returncode == 1 and said.stderr == "mesh: /nowhere/gmr can't be run: $GMR names no program\n"
