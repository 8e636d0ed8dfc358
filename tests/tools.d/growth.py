"""Tests that the time of tools/infer and tools/why grows with the darts, and not faster: processor time of two sizes, the
second four times the first. Where it grew with the square, it would be sixteen times as much."""
import resource
import tempfile
from collections.abc import Callable
from pathlib import Path

from gmr.commands.why import Run
from gmr.infer.example import compare
from gmr.infer.inference import infer
from gmr.maps import load_map
from gmr.program import answer
from infer import grid_text

MOST_TIMES = 8.0     # as long, for four times the darts
BOOK = """book 1 dim 2
rule all left a <0 1 2> hook right a <0 _ 2> b <_ 2 _> c <1 2 _> a -1- b b -0- c
rule face left a <0 1> hook right a <0 _> b <_ 2> c <1 2> a -1- b b -0- c
rule free left a <0> hook a -2- a right a <0> a -2- a"""


def seconds(work: Callable[[], None]) -> float:
    """The least of two times that it takes, of this process and of the programs that it runs."""
    def now() -> float:
        """The processor time so far."""
        used = [resource.getrusage(who) for who in (resource.RUSAGE_SELF, resource.RUSAGE_CHILDREN)]
        return sum(one.ru_utime + one.ru_stime for one in used)

    found = []
    for _ in range(2):
        begin = now()
        work()
        found.append(now() - begin)
    return min(found)


def files_of(folder: Path, rows: int, script: str) -> dict[str, str]:
    """A grid of a number of rows of as many squares, the book, and a script."""
    texts = {"MAP": grid_text(rows, rows), "BOOK": BOOK, "SCRIPT": script}
    files = {role: str(folder / role) for role in texts}
    for role, text in texts.items():
        Path(files[role]).write_text(text, encoding="ascii")
    return files


def time_infer(rows: int) -> float:
    """How long the rule that triangulates a whole grid takes to be found."""
    with tempfile.TemporaryDirectory() as name:
        files, after = files_of(Path(name), rows, "apply all 0"), str(Path(name, "after"))
        assert answer("run", *files.values(), after)[0] == 0
        maps = load_map(files["MAP"]), load_map(after)
        return seconds(lambda: check_rule(compare(*maps)))


def check_rule(example) -> None:
    """Makes the rule of an example, which has three nodes."""
    assert len(infer(example).draft.nodes) == 3


def time_why(rows: int) -> float:
    """How long four refusals take to be told."""
    script = "\n".join(f"apply face {8 * at * rows}\napply free {8 * (rows + 1) * at + 2}" for at in range(4))
    with tempfile.TemporaryDirectory() as name:
        files = files_of(Path(name), rows, script)
        return seconds(lambda: tell_refusals(files, Path(name)))


def tell_refusals(files: dict[str, str], folder: Path) -> None:
    """Tells why each line that is refused is."""
    run = Run(files, answer("run", *files.values(), folder / "out")[1], folder)
    said = [run.tell(at, 10)[0] for at in run.refused()]
    assert len(said) == 4 and all(len(lines) > 5 for lines in said), said


def check_growth(times: Callable[[int], float], rows: int) -> None:
    """Whether four times the darts take less than a few times as long."""
    small, large = times(rows), times(2 * rows)
    assert large < MOST_TIMES * small, (small, large)


def test_infer_grows_with_the_darts() -> None:
    """A rule over a whole grid of 1,152 darts, and over one of 4,608."""
    check_growth(time_infer, 12)


def test_why_grows_with_the_darts() -> None:
    """Refusals on a grid of 18,432 darts, and on one of 73,728."""
    check_growth(time_why, 48)
