"""What all commands share: they are quiet where they are asked to be, end with 130 at an interrupt, and tell a fault in
one line with the file's name. And the programs of bench answer --help, and begin no proof."""
import io
import os
import re
import shutil
import signal
import subprocess
import sys
import time
from pathlib import Path

import pytest

from gmr import progress
from gmr.commands.frame import with_shared_first

TOP = Path(__file__).resolve().parents[2]
EXAMPLES = TOP / "examples"
PROGRAMS = sorted(path for path in (TOP / "bench").iterdir() if path.is_file() and not path.suffix)
TOOLS = sorted((TOP / "tools").iterdir())
PATIENCE = 300      # seconds: a machine that is busy is slow


def run(*words: str | Path, **environment: str) -> subprocess.CompletedProcess[str]:
    """A command of this checkout, run to its end."""
    return subprocess.run([sys.executable, *words], capture_output=True, text=True, check=False, timeout=PATIENCE,
                          env={**os.environ, **environment})


def test_quiet(tmp_path: Path) -> None:
    """An import tells what it did, and nothing at all where it is asked to be quiet."""
    words: list[str | Path] = ["import", EXAMPLES / "cube.obj", tmp_path / "cube.gmap"]
    told, quiet = run(TOP / "tools" / "mesh", *words), run(TOP / "tools" / "mesh", "--quiet", *words)
    assert told.returncode == quiet.returncode == 0
    assert told.stdout and quiet.stdout == quiet.stderr == ""


@pytest.mark.parametrize("place", range(4))
def test_shared_options_anywhere(tmp_path: Path, place: int) -> None:
    """--quiet and --version stand before, between and after the words of a subcommand."""
    words: list[str | Path] = ["import", EXAMPLES / "cube.obj", tmp_path / "cube.gmap"]
    words[place:place] = ["--quiet"]
    assert run(TOP / "tools" / "mesh", *words).stdout == "" and (tmp_path / "cube.gmap").exists()
    words[place] = "--version"
    assert run(TOP / "tools" / "mesh", *words).stdout.startswith("mesh of gmr ")


def test_version_is_looked_for_when_asked() -> None:
    """What finds the version is slow to import, so a tool that isn't asked for it doesn't."""
    words = "import sys, gmr.commands.frame; print('importlib.metadata' in sys.modules)"
    assert run("-c", words, PYTHONPATH=str(TOP / "python")).stdout == "False\n"


def test_shared_options_first() -> None:
    """What all tools share goes before all else, but for what stands after `--`, where no word is an option."""
    assert with_shared_first(["a", "--quiet", "-b", "--unproved"]) == ["--quiet", "--unproved", "a", "-b"]
    assert with_shared_first(["a", "--", "--quiet"]) == ["a", "--", "--quiet"]
    assert with_shared_first(["--version"]) == ["--version"]


@pytest.mark.parametrize("tool", TOOLS, ids=lambda tool: tool.name)
def test_words(tool: Path) -> None:
    """Help has an example; wrong words are told in one line, with status 2."""
    helped, wrong = run(tool, "--help"), run(tool, "--no-such-word")
    assert helped.returncode == 0 and "example" in helped.stdout and not helped.stderr
    assert wrong.returncode == 2 and wrong.stderr.startswith(f"{tool.name}: ") and wrong.stderr.count("\n") == 1


@pytest.mark.parametrize("words", [
    ("mesh", "import", "a.obj", "a.obj"), ("mesh", "export", "a.gmap", "a.gmap"),
    ("book", "join", "a.gbook", "--out", "a.gbook"), ("draw", "a.svg", "a.svg"),
    ("mesh", "run", "a.obj", "a.gbook", "a.gscript", "a.obj"),
])
def test_nothing_that_is_read_is_written(tmp_path: Path, words: tuple[str, ...]) -> None:
    """A command that is told to write over what it reads refuses in one line, and the file stays."""
    for name, example in (("a.obj", "cube.obj"), ("a.gmap", "square.gmap"), ("a.svg", "square.gmap"),
                          ("a.gbook", "split.gbook")):
        shutil.copy(EXAMPLES / example, tmp_path / name)
    (tmp_path / "a.gscript").write_text("", encoding="ascii")
    before = {path.name: path.read_bytes() for path in tmp_path.iterdir()}
    done = subprocess.run([sys.executable, TOP / "tools" / words[0], *words[1:]], cwd=tmp_path, capture_output=True,
                          text=True, check=False, timeout=PATIENCE)
    assert done.returncode in (1, 2) and done.stderr.count("\n") == 1, done
    assert {path.name: path.read_bytes() for path in tmp_path.iterdir()} == before


def test_progress(monkeypatch: pytest.MonkeyPatch) -> None:
    """What takes long is told on a terminal, in a line that is gone at the end; not where it is quiet."""
    monkeypatch.setattr(progress, "PATIENCE", 0.01)
    for is_terminal, is_quiet in ((True, False), (True, True), (False, False)):
        said = io.StringIO()
        monkeypatch.setattr(said, "isatty", lambda is_it=is_terminal: is_it)
        monkeypatch.setattr(sys, "stderr", said)
        with progress.show_progress("mesh", is_quiet):
            progress.tell("reading a file")
            until = time.monotonic() + 20
            while is_terminal and not is_quiet and not said.getvalue() and time.monotonic() < until:
                time.sleep(0.02)
        if is_terminal and not is_quiet:
            assert re.search(r"mesh: reading a file, \d+ s", said.getvalue()) and said.getvalue().endswith(" \r")
        else:
            assert not said.getvalue()


@pytest.mark.parametrize("text", ["apply", "apply split", "group apply split 0", "apply split 0 with (", "each <0"])
def test_script_breaks_off(tmp_path: Path, text: str) -> None:
    """A script that breaks off is told in one line, with its name where it is the script that is wrong."""
    script = tmp_path / "broken.gscript"
    script.write_text(text, encoding="ascii")
    done = run(TOP / "tools" / "book", "take", EXAMPLES / "split.gbook", script)
    assert done.returncode in (0, 1) and "Traceback" not in done.stderr
    if done.returncode == 1:
        assert len(done.stderr.splitlines()) == 1 and "broken.gscript" in done.stderr


def test_interrupt(tmp_path: Path) -> None:
    """An interrupt ends a command with 130 and one line."""
    pipe = tmp_path / "waits.gbook"
    os.mkfifo(pipe)     # the command waits here for a book that nobody writes
    words: list[str | Path] = [sys.executable, TOP / "tools" / "book", "join", pipe, "--out", tmp_path / "out"]
    # A gate that a shell started in the background hands on that an interrupt is ignored.
    with subprocess.Popen(words, stderr=subprocess.PIPE, text=True,
                          preexec_fn=lambda: signal.signal(signal.SIGINT, signal.SIG_DFL)) as waiting:
        with pipe.open("wb"):       # opens as soon as the command reads
            time.sleep(0.5)
            waiting.send_signal(signal.SIGINT)
            said = waiting.communicate(timeout=PATIENCE)[1]
    assert (waiting.returncode, said) == (130, "book: interrupted\n")


@pytest.mark.parametrize("program", PROGRAMS, ids=lambda program: program.name)
def test_bench_answers_help(program: Path) -> None:
    """Each program of bench says what it is for, whether a program is built or not."""
    done = run(program, "--help", GMR="/nowhere/gmr")
    assert done.returncode == 0 and len(done.stdout) > 60 and done.stderr == ""


@pytest.mark.parametrize("name", ["run", "show", "books", "growth", "apply", "history", "beside", "save"])
def test_bench_begins_no_proof(name: str) -> None:
    """Where the program isn't there, a program of bench says so in a line."""
    done = run(TOP / "bench" / name, GMR="/nowhere/gmr")
    assert done.returncode == 1 and len(done.stderr.splitlines()) == 1 and "/nowhere/gmr isn't there" in done.stderr
