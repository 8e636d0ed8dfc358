"""What stands behind a program: its record, and what is counted in the sources that it was built from."""
import hashlib
import re
import subprocess
from pathlib import Path
from typing import NamedTuple

from gmr.errors import Fault

UNPROVED = "UNPROVED"


class Build(NamedTuple):
    """A program, and what is known of how it was built; `kind` is proved or UNPROVED."""
    program: Path
    kind: str
    by: str
    toolchain: str
    commit: str

    @property
    def is_proved(self) -> bool:
        """Whether it was proved."""
        return self.kind == "proved"


def find_proved_build(top: Path) -> Build:
    """The proved build of a checkout; Fault where there is none that fits its sources."""
    told = subprocess.run([top / "gmr", "--differences"], capture_output=True, text=True, check=False)
    if told.returncode:
        line = (told.stdout or told.stderr).partition("\n")[0]
        raise Fault(f"no proved build fits the sources ({line}); ./gmr --prove makes one")
    program = top / "crates" / "gmr" / "out" / "gmr"
    record = program.with_name("gmr.record").read_text(encoding="utf-8").partition("\n\n")[0]
    words = dict(line.split(" ", 1) for line in record.splitlines())
    return Build(program, words["built"], words["by"], words["toolchain"], words["commit"])


def ask_unproved_build(top: Path, program: Path) -> Build:
    """A program of which nothing is known but that no proof stands behind it."""
    words = ["git", "-C", str(top), "describe", "--always", "--dirty"]
    commit = subprocess.run(words, capture_output=True, text=True, check=False).stdout.strip() or "unknown"
    return Build(program, UNPROVED, "nothing that proves it", "no toolchain that is known", commit)


def crates_of(top: Path) -> list[str]:
    """The crates that the program is made of: what it stands on, and itself."""
    lines = [line for line in (top / "crates.txt").read_text(encoding="utf-8").splitlines() if ":" in line]
    below = {line.split(":")[0].split()[0]: line.split(":")[1].split() for line in lines if not line.startswith("#")}
    found, waiting = set(), ["gmr"]
    while waiting:
        crate = waiting.pop()
        if crate in below and crate not in found:
            found.add(crate)
            waiting += below[crate]
    return sorted(found)


def count(top: Path, crates: list[str], files: str, pattern: str) -> int:
    """How often a pattern stands in such files of the crates, outside of comments."""
    paths = [path for crate in crates for path in (top / "crates" / crate).glob(files)]
    return sum(len(re.findall(pattern, re.sub(r"//.*", "", path.read_text(encoding="utf-8")), re.M)) for path in paths)


def digest_of(path: Path) -> str:
    """The digest of a file, by SHA-256."""
    return hashlib.sha256(path.read_bytes()).hexdigest()


def tell_proof(top: Path, build: Build, version: str) -> str:
    """The text of PROOF: up to its first empty line what `gmr --version` prints."""
    crates = crates_of(top)
    functions = count(top, crates, "src/**/*.rt", r"^\s*(?:pub(?:\([a-z ]+\))? )?(?:const )?fn \w+")
    clauses = count(top, crates, "src/**/*.rt", r"^\s*ensures\b")
    bodies = sum(len(list((top / "crates" / crate / "must-fail").glob("*.edit"))) for crate in crates)
    sources = subprocess.run([top / "gmr", "--sources"], capture_output=True, text=True, check=True).stdout.strip()
    behind = (
        "Each of these functions was proved to keep each of its clauses, and each of these wrong bodies stands in the\n"
        "repository's gate, whose prover must refuse it. The line above has the toolchain's words on this build."
        if build.is_proved else "Nothing of this was proved of this program. It is for tests alone."
    )
    return f"""{build.kind}, from commit {build.commit}, with {build.toolchain}
by {build.by}

{behind}

crates        {len(crates):6}  by crates.txt: what the program stands on, and itself
functions     {functions:6}  lines of their sources that begin a function, outside of comments
clauses       {clauses:6}  lines of their sources that begin an 'ensures'
wrong bodies  {bodies:6}  files must-fail/*.edit of these crates

sha256 of the program  {digest_of(build.program)}
sha256 of its sources  {sources}
The second is what './gmr --sources' prints in a checkout of that commit of gmr {version}: one digest over those of
all files that the proof and the compiler read.
"""
