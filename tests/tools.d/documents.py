"""Tests of the documents: each command of README and the guide that stands after a `$` prints what stands under it,
what the documents name is there, and each source opens with what it is for."""
import os
import re
import subprocess
import sys
import tempfile
from collections.abc import Iterator
from pathlib import Path
from typing import NamedTuple

from gmr.program import find_program

ROOT = Path(__file__).resolve().parents[2]
CRATES = ROOT / "crates"


class Command(NamedTuple):
    """A command of a document, the line where it stands, and the lines under it."""
    line: int
    text: str
    wanted: list[str]


def commands_of(text: str) -> Iterator[Command]:
    """The commands of a document: indented lines after a `$`, each with the indented lines under it."""
    lines = text.splitlines()
    for at, line in enumerate(lines):
        if line.startswith("    $ "):
            wanted = []
            for under in lines[at + 1:]:
                if not under.startswith("    ") or under.startswith("    $ "):
                    break
                wanted.append(under[4:])
            yield Command(at + 1, line[6:], wanted)


def run_document(name: str) -> None:
    """Runs the commands of a document one after another in one folder, as someone at the top of the repository does."""
    with tempfile.TemporaryDirectory() as folder:
        for entry in ROOT.iterdir():
            if entry.name not in (".git", "gmr") and not re.search(r"\.(gmap|svg|png)$", entry.name):
                Path(folder, entry.name).symlink_to(entry)
        Path(folder, "gmr").symlink_to(os.path.abspath(find_program()))
        differing = []
        for command in commands_of((ROOT / name).read_text(encoding="utf-8")):
            done = subprocess.run(["bash", "-c", command.text], cwd=folder, stdin=subprocess.DEVNULL,
                                  capture_output=True, text=True, check=False, timeout=60)
            found = done.stdout.splitlines()
            if (found != command.wanted and command.wanted) or done.stderr:
                differing.append(f"{name}:{command.line}: {command.text}: {found[:8]} {done.stderr[:300]}")
        made = [entry.name for entry in Path(folder).iterdir() if not entry.is_symlink()]
    assert not differing, differing
    told = subprocess.run(["git", "-C", ROOT, "check-ignore", *made], capture_output=True, text=True, check=False)
    assert sorted(told.stdout.split()) == sorted(made), f".gitignore leaves out some of {made}"


def test_readme() -> None:
    """The commands of README."""
    run_document("README.md")


def test_guide() -> None:
    """The commands of the guide."""
    run_document("docs/GUIDE.md")


QUESTIONS = {  # what a first reader asks, and words of README and of the guide that answer
    "where do I get it": ("**A release needs no toolchain**", ""), "what goes in": ("**What goes in and out**: OBJ", ""),
    "how large": ("up to 1,048,576 darts", ""), "how fast": ("10,000 faces are triangulated in", ""),
    "what if it refuses": ("a line that is refused has one cause", "A refused line has one cause"),
    "is it free to use": ("**No licence has been chosen yet**", ""), "what is proved": ("- **Proved**:", ""),
    "how do I undo": ("`undo` takes back what was done", "`undo` gives the map before"),
    "how do I see it": ("**How to see it**: `tools/draw`", "**`tools/draw`: pictures.**"),
    "from Python": ("`import gmr` in Python", "**From Python**: `import gmr`"),
    "which formats out": ("glTF, volumes of VTK and Gmsh, in and out", "**Meshes out**"),
    "how does it compare": ("| | gmr | Jerboa | CGAL's generalised maps | OpenMesh |", "")}


def test_a_first_reader_is_answered() -> None:
    """README, and the guide where it says more, answer what is asked first."""
    texts = [(ROOT / name).read_text(encoding="utf-8") for name in ("README.md", "docs/GUIDE.md")]
    missing = [(asked, words) for asked, answers in QUESTIONS.items() for words, text in zip(answers, texts)
               if words not in text]
    assert not missing, missing


def cited(text: str) -> Iterator[tuple[str, str]]:
    """The files that a text cites, each with a name after it, or with none."""
    folders = r"gm\w*|tools|editors|python|bench|tests|docs|\.ci"
    for path, names in re.findall(rf"`((?:{folders})/[\w/.]*\w|gmr)`(?:: ((?:`\w+`(?:, )?)+))?", text):
        for name in re.findall(r"\w+", names) or [""]:
            yield path, name


def test_where_to_change_what() -> None:
    """What the table of changes cites is there: the file, and in it the name."""
    text = (ROOT / "docs" / "ARCHITECTURE.md").read_text(encoding="utf-8")
    table = text.split("## To change X, go to Y")[1].split("\n## ")[0]
    missing = []
    for path, name in cited(table):
        file = CRATES / path if path.startswith("gm") and path != "gmr" else ROOT / path
        if not file.is_file() or not re.search(rf"\b{name}\b", file.read_text(encoding="utf-8")):
            missing.append(f"{path}: {name}")
    assert not missing, missing
    assert table.count("\n| **") == 17


def names_of_code(text: str) -> set[str]:
    """The names in a text that only code has: in backquotes, with a line below or a capital within."""
    cited = re.findall(r"`(?:\w+(?:::|\.))*(\w+)`", text)
    return {name for name in cited if re.fullmatch(r"[a-z]\w*_\w+|[A-Z][a-z]+[A-Z]\w*", name)}


def test_names_of_code() -> None:
    """What the documents name of the code, as clauses, laws, definitions and functions, is there."""
    files = [path for folder in ("crates", "python", "bench", "tests") for path in (ROOT / folder).rglob("*")
             if path.suffix in (".rt", ".antt", ".py") or path.parent.name == "bench" and path.is_file()]
    known = set(re.findall(r"\w+", "\n".join(path.read_text(encoding="utf-8") for path in files) + "\n" +
                           (ROOT / "gmr").read_text(encoding="utf-8")))
    missing = {}
    for name in ("MODEL", "PROVED", "DECISIONS", "DEVELOPING", "TESTING", "ARCHITECTURE"):
        named = names_of_code((ROOT / "docs" / f"{name}.md").read_text(encoding="utf-8"))
        if strange := sorted(named - known):
            missing[name] = strange
    assert not missing, missing


def opens_untold(path: Path) -> bool:
    """Whether a source or a definition begins without a line on what it is for, or re-exports more than that names."""
    mark = "//! " if path.suffix == ".rt" else "-- "
    first, _, rest = path.read_text(encoding="utf-8").partition("\n")
    lines = [line for line in rest.splitlines() if line]
    re_exported = [line.split()[-1] for line in lines if line.startswith("pub mod ")]
    only_those = path.suffix == ".antt" and len(re_exported) == len(lines)
    untold = set(re_exported) - set(re.findall(r"\w+", first)) if only_those else set()
    return not first.startswith(mark) or bool(untold)


def test_sources_say_what_they_are_for() -> None:
    """Each source and each file of definitions opens with what it is for; one of modules alone names them."""
    files = [*CRATES.glob("*/src/**/*.rt"), *CRATES.glob("*/specs/**/*.antt")]
    assert len(files) > 300, len(files)
    untold = sorted(str(path.relative_to(ROOT)) for path in files if opens_untold(path))
    assert not untold, f"these open without a line on what they are for: {untold}"


def test_lines_to_believe() -> None:
    """README and PROVED say how many lines the sentence rests on, as docs/definitions.py counts them."""
    counts = [sys.executable, str(ROOT / "docs" / "definitions.py"), "headline"]
    done = subprocess.run(counts, capture_output=True, text=True, check=True)
    [counted] = re.findall(r"(\d+) lines in all", done.stdout)
    lines = f"{int(counted):,}"
    for name in ("README.md", "docs/PROVED.md"):
        told = re.findall(r"([\d,]+) lines", (ROOT / name).read_text(encoding="utf-8"))
        assert lines in told, f"{name} doesn't say {lines} lines, but {told}"


def test_commands_are_told() -> None:
    """What stands over `tool`, and the table of commands, name each command that there is."""
    source = (CRATES / "gm_tool" / "src" / "program.rt").read_text(encoding="utf-8")
    words = (CRATES / "gm_tool" / "specs" / "Answer.antt").read_text(encoding="utf-8")
    commands = re.findall(r"^command_word \w+ = codes \"(\w+)\"", words, re.MULTILINE)
    comment = source[:source.index("\npub fn tool")].rsplit("\n\n", 1)[1]
    formats = (ROOT / "docs" / "FORMATS.md").read_text(encoding="utf-8").split("\n## Commands")[1].split("\n## ")[0]
    assert commands, "no command is defined"
    for command in [*commands, "run", "migrate", "dual", "grid"]:
        assert re.search(rf"`{command}\b", comment), f"the words over `tool` leave out {command}"
        assert re.search(rf"\b{command}\b", formats), f"FORMATS leaves out {command}"


def test_modules_are_there() -> None:
    """The modules of the tools that ARCHITECTURE names are there, and none is longer than 400 lines."""
    text = (ROOT / "docs" / "ARCHITECTURE.md").read_text(encoding="utf-8")
    assert not [path for path in re.findall(r"`(python/gmr/[\w/]+\.py)`", text) if not (ROOT / path).is_file()]
    files = [path for path in (ROOT / "tools").rglob("*") if path.is_file() and path.suffix in ("", ".py")]
    lengths = {path.name: len(path.read_text(encoding="utf-8").splitlines()) for path in files}
    assert not {name: length for name, length in lengths.items() if length > 400}


def may_run_out_of_memory(signature: str) -> bool:
    """Whether a call with these parameters and this result may say that memory ran out."""
    return re.search(r"alloc: Global|AllocError|OutOfMemory|Result<", signature.split("ensures")[0]) is not None


def calls_of(crate: Path) -> set[str]:
    """The public calls of a crate that may say that memory ran out."""
    calls: set[str] = set()
    for path in crate.rglob("src/**/*.rt"):
        found = re.findall(r"\n( *)pub fn (\w+)(.*?)\n\1\{", path.read_text(encoding="utf-8"), re.DOTALL)
        calls.update(name for _, name, signature in found if may_run_out_of_memory(signature))
    return calls


def test_sizes_of_calls() -> None:
    """tests/sizes.table names each public call that may say that memory ran out once, and words that are there."""
    named: dict[str, list[str]] = {}
    for line in (ROOT / "tests" / "sizes.table").read_text(encoding="utf-8").splitlines():
        if line and not line.startswith("#"):
            crate, calls, path, words = re.fullmatch(r'(\w+): ([\w ]+) -> (\S+) "(.*)"', line).groups()
            named.setdefault(crate, []).extend(calls.split())
            assert words in (ROOT / path).read_text(encoding="utf-8"), f"{words!r} isn't in {path}"
    for crate in sorted(CRATES.glob("gm_*")):
        calls = set() if crate.name in ("gm_tests", "gm_theory") else calls_of(crate)
        told = named.get(crate.name, [])
        assert calls == set(told), (crate.name, sorted(calls ^ set(told)))


def test_links() -> None:
    """What a document links to is there."""
    for path in [ROOT / "README.md", *(ROOT / "docs").glob("*.md")]:
        for target in re.findall(r"\]\(([^)#:]+)\)", path.read_text(encoding="utf-8")):
            assert (path.parent / target).exists(), f"{path.name} links to {target}"
