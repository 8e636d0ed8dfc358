"""Tests of tools/infer over examples with a rule hidden in them and examples without one (infer_cases.toml)."""
import subprocess
import sys
import tempfile
import tomllib
from collections.abc import Callable
from pathlib import Path

from gmr.books import read_book
from gmr.infer.compare import are_same
from gmr.infer.place import draft_of

ROOT = Path(__file__).resolve().parents[2]
CASES = tomllib.loads(Path(__file__).with_suffix(".toml").read_text(encoding="utf-8"))["case"]


def run(*words: str) -> tuple[int, str, str]:
    """The status of tools/infer, its output, and what it says of faults."""
    command = [sys.executable, ROOT / "tools" / "infer", *words]
    done = subprocess.run(command, capture_output=True, text=True, check=False)
    return done.returncode, done.stdout, done.stderr


def check(case: dict) -> None:
    """Makes the rule of a case, and compares what comes with what must come."""
    with tempfile.TemporaryDirectory() as folder:
        files = []
        for at, text in enumerate(case["maps"]):
            files.append(str(Path(folder, f"{at}.gmap")))
            Path(files[-1]).write_text(text, encoding="ascii")
        status, text, said = run(*files, *case.get("words", []))
    name = case["name"]
    assert status == case.get("status", 0) or "--verbose" in case.get("words", []), (name, status, text, said)
    for part in case.get("told", []):
        assert part in text + said, (name, part, text, said)
    if status == 1 and "--verbose" not in case.get("words", []):
        assert said.count("\n") == 1 and said.startswith("infer: "), (name, said)
    if "rule" in case:
        book = read_book(text)
        wanted = read_book(f"book 2 dim {book.dimension} rule r {case['rule']}")
        assert are_same(draft_of(book.rules[0]), draft_of(wanted.rules[0])), (name, text)


def made(case: dict) -> Callable[[], None]:
    """A test of a case."""
    return lambda: check(case)


globals().update({f"test_{case['name'].replace(' ', '_').replace(',', '')}": made(case) for case in CASES})


def test_there_are_enough() -> None:
    """As many examples as are said to be there."""
    assert len(CASES) >= 25
