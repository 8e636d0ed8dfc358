"""A test of the build without proofs by the real toolchain, from nothing, in a copy of the program's sources."""
import resource
import shutil
import subprocess
import tempfile
import time
from pathlib import Path

from standins import ROOT

PARTS = ("gmr", "crates.txt", "HANDLES", "python/VERSION", "examples/square.gmap")
UNWANTED = shutil.ignore_patterns("out", "must-fail", "__pycache__")
MOST_WORK = 180     # seconds of the processor: some 50 on an idle machine, whose clock shows as many


def seconds_to_answer(top: Path) -> float:
    """How long a call takes that shows a map, from a build without proofs; and what it shows is compared."""
    began = time.monotonic()
    done = subprocess.run([top / "gmr", "--unproved", "show", "examples/square.gmap"], cwd=top, capture_output=True,
                          text=True, check=False)
    took = time.monotonic() - began
    assert done.returncode == 0 and "UNPROVED" in done.stderr, done
    lines = (ROOT / "examples" / "square.gmap").read_text(encoding="ascii").splitlines(keepends=True)
    assert done.stdout == "".join(line for line in lines if not line.startswith("#")), done
    return took


def work_of_children() -> float:
    """The processor seconds of the processes that this one started and that ended."""
    used = resource.getrusage(resource.RUSAGE_CHILDREN)
    return used.ru_utime + used.ru_stime


def test_first_answer_and_second() -> None:
    """What the first answer takes is told, and its work is held, since other tests run beside it; the second comes at
    once."""
    if shutil.which("rt") is None or shutil.which("rattle") is None:
        return
    with tempfile.TemporaryDirectory() as name:
        top = Path(name, "checkout")
        for folder in ("crates", "bench"):
            shutil.copytree(ROOT / folder, top / folder, ignore=UNWANTED)
        for file in PARTS:
            if (ROOT / file).exists():
                (top / file).parent.mkdir(parents=True, exist_ok=True)
                shutil.copy(ROOT / file, top / file)
        before = work_of_children()
        first = seconds_to_answer(top)
        work = work_of_children() - before
        second = min(seconds_to_answer(top) for _ in range(5))
        print(f"the first unproved answer took {first:.0f} s, {work:.0f} s of the processor, the second {second * 1000:.0f} ms")
        assert work < MOST_WORK, f"the first answer took {work:.0f} s of the processor"
        assert second < 1 and second < first / 20, f"the second answer took {second:.1f} s"
