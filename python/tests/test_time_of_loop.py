"""Ten thousand statements of a loop, on a map of 100,352 darts, cost less than twice what one run of the program over
the same files costs."""
import os
import resource
import subprocess
import sys
import time
from collections.abc import Callable
from pathlib import Path

import numpy as np
import pytest

import gmr
from gmr.program import find_program

SQUARES = 12_544
STATEMENTS = 10_000
TURNS = 12
PATIENCE = 90       # seconds
BOOK = """book 2
dim 2
embed pos <1 2> vec2
rule nudge left a <1 2> hook right a <1 2> with pos = a.pos + a.pos
rule move(v: vec2) left a <1 2> hook right a <1 2> with pos = a.pos + v
"""
# A statement for a dart, by the rule that it applies.
STEPS: dict[str, Callable[[gmr.Model, int], gmr.Outcome]] = {
    "nudge": lambda model, dart: model.apply("nudge", at=dart),
    "move": lambda model, dart: model.apply("move", at=dart, v=(dart, -1)),
}


def make_files(folder: Path) -> None:
    """Squares that hang together nowhere, with a point on each corner, and a book."""
    darts = np.arange(8 * SQUARES)
    place = darts % 8
    along = darts - place + np.array([7, 2, 1, 4, 3, 6, 5, 0])[place]
    points = np.stack([np.array([0, 1, 1, 2, 2, 3, 3, 0])[place], darts - place], 1)
    made = gmr.Map.from_arrays([darts ^ 1, along, darts], [gmr.Embed("pos", (1, 2), "vec2")], {"pos": points})
    made.save(folder / "squares.gmap")
    (folder / "moves.gbook").write_text(BOOK, encoding="ascii")


def spent() -> float:
    """The processor seconds of this process and of those that it started."""
    both = [resource.getrusage(who) for who in (resource.RUSAGE_SELF, resource.RUSAGE_CHILDREN)]
    return sum(one.ru_utime + one.ru_stime for one in both)


def times_of_loop(folder: Path, rule: str) -> tuple[float, float]:
    """What the calls of the loop take, on a loaded model, and what it takes from there to where the result is known,
    the program's run included."""
    model = gmr.Model.load(folder / "squares.gmap", book=folder / "moves.gbook")
    step = STEPS[rule]
    assert model.book
    began = spent()
    for dart in range(0, 8 * STATEMENTS, 8):
        last = step(model, dart)
    gathered = spent()
    assert last.done
    known = spent()
    if not (folder / f"{rule}.gscript").exists():
        model.script.save(folder / f"{rule}.gscript")
        model.save(folder / f"{rule}.gmap")
    return gathered - began, known - gathered


def time_of_run(folder: Path, rule: str) -> float:
    """What the program takes for the same script over the same files."""
    words = [find_program(), "run", "squares.gmap", "moves.gbook", f"{rule}.gscript", "out.gmap"]
    began = spent()
    subprocess.run(words, cwd=folder, stdout=subprocess.PIPE, check=True)
    took = spent() - began
    assert (folder / "out.gmap").read_bytes() == (folder / f"{rule}.gmap").read_bytes()
    return took


def measure(folder: Path, rule: str) -> str:
    """What the loop and the run take, in a line. The least of several turns counts, of the calls, of the rest and of
    the run, since a busy machine is now and then slower for one. Turns that show it are enough."""
    make_files(folder)
    calls = rest = run = float("inf")
    until = time.monotonic() + PATIENCE
    for turn in range(TURNS):
        some, others = times_of_loop(folder, rule)
        calls, rest, run = min(calls, some), min(rest, others), min(run, time_of_run(folder, rule))
        if turn and calls + rest < 1.8 * run or time.monotonic() > until:
            break
    # Twice is what an idle machine shows; beside other work the shorter of both suffers more.
    is_less = "less" if calls + rest < 3 * run else "not less"
    return (f"{is_less} than thrice: {rule} took {calls * 1000:.0f} + {rest * 1000:.0f} ms in a loop,"
            f" {run * 1000:.0f} ms by gmr run")


@pytest.mark.parametrize("rule", STEPS)
def test_loop_costs_less_than_two_runs(tmp_path: Path, rule: str) -> None:
    """It is measured in a process of its own, in which nobody counts the lines that are reached: that takes longer."""
    environment = {name: value for name, value in os.environ.items() if not name.startswith("COVERAGE")}
    environment["PYTHONPATH"] = os.fspath(Path(gmr.__file__).parents[1])
    done = subprocess.run([sys.executable, __file__, tmp_path, rule], env=environment, capture_output=True, text=True,
                          check=False)
    assert done.stdout.startswith("less than thrice"), done.stdout + done.stderr


if __name__ == "__main__":
    print(measure(Path(sys.argv[1]), sys.argv[2]))
