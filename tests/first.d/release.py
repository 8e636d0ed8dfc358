"""Tests of a release: made from a proved build where there is one, else, marked as that, from the program of $GMR; then
unpacked and installed, used by another user without a toolchain on the path, and removed."""
import gzip
import os
import re
import subprocess
import sys
import tempfile
from collections.abc import Iterator
from contextlib import contextmanager
from pathlib import Path
from typing import NamedTuple

from standins import ROOT, SYSTEM, completions

sys.path.append(str(ROOT / "tests" / "tools.d"))

from documents import commands_of  # noqa: E402  # pylint: disable=wrong-import-position

OTHER = ["setpriv", "--reuid", "65534", "--regid", "65534", "--clear-groups"] if os.geteuid() == 0 else []
TOOLS = sorted(path.name for path in (ROOT / "tools").iterdir() if path.is_file() and path.name != "release")
# A line for each tool, where it does what it is for.
WORK = (
    "{bin}mesh import examples/cube.obj cube.gmap --scale 10",
    "{bin}find cube.gmap --list 2",
    "{bin}why examples/mistakes.gbook >why.txt || test -s why.txt",
    "{bin}draw cube.gmap cube.svg && test -s cube.svg",
    "{bin}book take examples/operations/values2.gbook examples/cube.gscript --out used.gbook",
    "{bin}infer examples/operations/dimension2/flip_edge/before.gmap"
    " examples/operations/dimension2/flip_edge/after.gmap --name flip --out flip.gbook flip.gscript",
    "{bin}studio --help",
)


class Release(NamedTuple):
    """The two files of a release, and the folder in which they lie."""
    folder: Path
    archive: Path
    package: Path


def is_proved() -> bool:
    """Whether this checkout has a proved build that fits."""
    return subprocess.run([ROOT / "gmr", "--differences"], capture_output=True, check=False).returncode == 0


def make(out: Path) -> list[Path]:
    """The files of a release of what there is."""
    words = [] if is_proved() else ["--from-unproved", os.environ["GMR"]]
    told = subprocess.run([ROOT / "tools" / "release", *words, out], capture_output=True, text=True, check=False)
    assert told.returncode == 0, told.stderr
    return [Path(line) for line in told.stdout.splitlines()]


@contextmanager
def released() -> Iterator[Release]:
    """A release, in a folder that everyone can read."""
    with tempfile.TemporaryDirectory() as name:
        folder = Path(name)
        folder.chmod(0o755)
        archive, package = make(folder / "made")
        yield Release(folder, archive, package)


def run(line: str, folder: Path, home: Path) -> str:
    """What a line prints as another user who can write nothing but that folder, with no toolchain on the path."""
    environment = {"PATH": SYSTEM, "HOME": str(home), "LANG": "C.UTF-8"}
    done = subprocess.run([*OTHER, "bash", "-c", line], cwd=folder, env=environment, stdin=subprocess.DEVNULL,
                          capture_output=True, text=True, check=False, timeout=120)
    assert done.returncode in (0, 1) and not re.search("Traceback|not found", done.stderr), (line, done)
    return done.stdout


def use(folder: Path, tools: str, version: str) -> None:
    """Runs each command of README and each tool in a folder that has ./gmr and examples, and asks for the version."""
    for command in commands_of((ROOT / "README.md").read_text(encoding="utf-8")):
        found = run(re.sub(r"\btools/", tools, command.text), folder, folder).splitlines()
        assert found == command.wanted, (command.text, found)
    for line in WORK:
        run(line.format(bin=tools), folder, folder)
    assert run("./gmr --version", folder, folder).startswith(version)
    assert "--prove" not in run("./gmr --help", folder, folder)
    for tool in TOOLS:
        assert "usage" in run(f"{tools}{tool} --help", folder, folder)


def test_the_release() -> None:
    """The archive, unpacked by another user, and the package, installed in a root of its own, run all; a removal leaves
    nothing; and both say what stands behind the program."""
    version = f"gmr {(ROOT / 'python' / 'VERSION').read_text().strip()}\n{'proved' if is_proved() else 'UNPROVED'}, from commit "
    with released() as made:
        assert ("UNPROVED" in made.archive.name) == ("UNPROVED" in made.package.name) == (not is_proved())
        home = made.folder / "home"
        home.mkdir()
        if OTHER:
            os.chown(home, 65534, 65534)
        run(f"tar -xf {made.archive}", home, home)
        (tree,) = home.iterdir()
        use(tree, "tools/", version)
        assert run(f"PATH=$PATH:{tree}/bin; gmr-find --version", home, home).startswith("find of gmr")
        check_proof((tree / "PROOF").read_text(encoding="utf-8"))
        check_manual(tree / "share")
        install(made, version)


def install(made: Release, version: str) -> None:
    """Installs the package in a root of its own, uses it there, and removes it."""
    root = made.folder / "root"
    (root / "var/lib/dpkg").mkdir(parents=True)
    (root / "var/lib/dpkg/status").touch()
    before = sorted(root.rglob("*"))
    words = ["dpkg", f"--instdir={root}", f"--admindir={root}/var/lib/dpkg", "--force-depends",
             "--force-not-root", "--log=/dev/null"]
    done = subprocess.run([*words, "-i", made.package], capture_output=True, text=True, check=False)
    assert done.returncode == 0, done.stderr
    folder = made.folder / "work"
    folder.mkdir()
    (folder / "gmr").symlink_to(root / "usr/bin/gmr")
    (folder / "examples").symlink_to(root / "usr/share/gmr/examples")
    if OTHER:
        os.chown(folder, 65534, 65534)
    use(folder, f"{root}/usr/bin/gmr-", version)
    subprocess.run([f"{root}/usr/bin/gmr-find", "--version"], cwd=folder, check=True, capture_output=True)
    subprocess.run([*words, "-r", "gmr"], check=True, capture_output=True)
    subprocess.run([*words, "--purge", "gmr"], check=False, capture_output=True)
    left = [path for path in sorted(root.rglob("*")) if path not in before and "var/lib/dpkg" not in str(path)]
    assert not left, left


def check_proof(text: str) -> None:
    """PROOF counts what stands behind the program, and has digests."""
    for word in ("crates", "functions", "clauses", "wrong bodies"):
        counted = re.search(rf"^{word} +(\d+)  ", text, re.M)
        assert counted and int(counted[1]) > 20, (word, text)
    assert len(re.findall(r"^sha256 of .*  [0-9a-f]{64}$", text, re.M)) == 2, text


def check_manual(shared: Path) -> None:
    """The formatter finds no fault in the pages of the manual; there is completion for each tool."""
    pages = sorted(shared.glob("man/man*/*.gz"))
    assert [page.name for page in pages] == ["gmr-run.1.gz", "gmr.1.gz", "gmr-formats.5.gz"], pages
    for page in pages:
        text = gzip.decompress(page.read_bytes()).decode()
        assert "`" not in re.sub(r"\.nf\n.*?\n\.fi", "", text, flags=re.S), page
        done = subprocess.run(["groff", "-man", "-Tutf8", "-ww", "-Kutf8"], input=text, capture_output=True, text=True,
                              check=False)
        assert done.returncode == 0 and len(done.stdout) > 5000, (page, done.stderr[:500])
    named = {path.name for path in (shared / "bash-completion" / "completions").iterdir()}
    assert named == {"gmr", *(f"gmr-{tool}" for tool in TOOLS)}, named


def test_no_release_of_an_unproved_build() -> None:
    """Where no proved build fits, a release is refused in one line, and nothing is written."""
    if is_proved():
        return
    with tempfile.TemporaryDirectory() as name:
        words = [ROOT / "tools" / "release", Path(name, "out")]
        done = subprocess.run(words, capture_output=True, text=True, check=False)
        assert done.returncode == 1 and done.stderr.count("\n") == 1, done
        assert "no proved build fits the sources" in done.stderr and not Path(name, "out").exists(), done


def test_completion_of_tools() -> None:
    """A tool's options and commands are offered, by its own help, for each tool of a release."""
    text = (ROOT / "editors" / "bash" / "gmr").read_text(encoding="utf-8")
    named = re.search(r"^for _gmr_name in (.*); do$", text, re.M)
    assert named and named[1].split() == TOOLS
    assert "--scale" in completions(ROOT, "_gmr_tool", "tools/mesh", "import", "--s")
    assert "import" in completions(ROOT, "_gmr_tool", "tools/mesh", "im")
