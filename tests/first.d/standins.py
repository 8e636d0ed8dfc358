"""A checkout with crates of a line each, and stand-ins for the toolchain, for the tests of ./gmr: no proof is run."""
import os
import pty
import shutil
import subprocess
import tempfile
from collections.abc import Iterator
from contextlib import contextmanager
from pathlib import Path
from typing import NamedTuple

ROOT = Path(__file__).resolve().parents[2]
SYSTEM = "/usr/bin:/bin"
CRATES = """# Each crate and what it stands on.
gm_low:
gm_high: gm_low
gmr: gm_high
gm_tests: gm_low
"""
# A program that tells its words and ends with 3; but without words that it knows it refuses as gmr does.
PROGRAM = """case $1 in show|run|book|grid) echo "ran $*"; exit 3 ;; *) echo "refused usage"; exit 2 ;; esac"""
# It proves each crate once, and keeps that beside itself; after each it does what the file `meanwhile` there says; and
# it counts its runs. What it leaves is the program.
RT = f"""kit=$(dirname "$0")
if [ "$1" = version ]; then cat "$kit/version"; exit; fi
[ "$1" = ci ] || exit 2
echo ran >>"$kit/runs"
for crate in gm_low gm_high gmr; do
    [ -d "crates/$crate/src" ] || {{ echo "rt: $crate NOT PROVED"; exit 1; }}
    if grep -q wrong -r "crates/$crate/src"; then
        printf '== %s\\nit is wrong here\\nrt: %s NOT PROVED\\n' $crate $crate
        exit 1
    fi
    if [ -e "$kit/kept-$crate" ]; then echo "rt: $crate is kept: as it was"; else echo "rt: $crate proved"; fi
    touch "$kit/kept-$crate"
    [ ! -e "$kit/meanwhile" ] || . "$kit/meanwhile"
done
[ -d crates/gm_tests ] && {{ echo "rt: the tests are no part of it"; exit 1; }}
mkdir -p crates/gmr/out
printf '%s\\n' '#!/bin/bash' '{PROGRAM}' >crates/gmr/out/gmr
chmod +x crates/gmr/out/gmr
echo "rt: ok; handles allowed: none; 3 of 3 proofs"
echo "3 passed, 0 failed"
"""
# In the place of bench/unproved: the program, and a count of the builds.
BUILDER = f"""#!/usr/bin/env python3
import pathlib, sys
counted = pathlib.Path(__file__).with_name("builds")
counted.write_text(counted.read_text() + "built\\n" if counted.exists() else "built\\n")
if "broken" in pathlib.Path(__file__).parents[1].joinpath("crates/gmr/src/main.rt").read_text():
    sys.exit("error: it is broken")
pathlib.Path(sys.argv[2]).write_text('#!/bin/bash\\n{PROGRAM}\\n')
pathlib.Path(sys.argv[2]).chmod(0o755)
"""


class Checkout(NamedTuple):
    """A folder as a checkout, and one for the stand-ins."""
    folder: Path
    kit: Path

    def counted(self) -> int:
        """How often the gate's stand-in ran."""
        return len((self.kit / "runs").read_text().split()) if (self.kit / "runs").exists() else 0

    def start(self, *words: str, program: str = "gmr", errors: int = subprocess.PIPE) -> "subprocess.Popen[str]":
        """Starts ./gmr, in a session of its own, with the stand-ins and the system's programs on the path."""
        environment = {**os.environ, "PATH": f"{self.kit}:{SYSTEM}"}
        return subprocess.Popen([str(self.folder / program), *words], cwd=self.folder, env=environment, text=True,
                                stdin=subprocess.DEVNULL, stdout=subprocess.PIPE, stderr=errors,
                                start_new_session=True)

    def run(self, *words: str, program: str = "gmr") -> tuple[int, str, str]:
        """The status of ./gmr, its output and its errors."""
        started = self.start(*words, program=program)
        said, errors = started.communicate(timeout=60)
        return started.returncode, said, errors

    def run_at_terminal(self, answer: str, *words: str) -> tuple[int, str, str]:
        """The same, where standard error is a terminal at which that is typed."""
        ours, theirs = pty.openpty()
        started = self.start(*words, errors=theirs)
        os.close(theirs)
        os.write(ours, answer.encode())
        said = started.communicate(timeout=60)[0]
        shown = b""
        try:
            while part := os.read(ours, 4096):
                shown += part
        except OSError:      # what a terminal says when its other side is gone
            pass
        os.close(ours)
        return started.returncode, said, shown.decode()

    def version(self) -> str:
        """What --version prints."""
        status, said, errors = self.run("--version")
        assert status == 0 and not errors, (status, errors)
        return said


def put_program(path: Path, text: str) -> None:
    """Writes a program of the shell."""
    path.write_text(f"#!/bin/bash\n{text}\n", encoding="utf-8")
    path.chmod(0o755)


@contextmanager
def checkout(*, has_toolchain: bool = True) -> Iterator[Checkout]:
    """A checkout in which nothing is built, beside a toolchain or none."""
    with tempfile.TemporaryDirectory() as name:
        made = Checkout(Path(name, "a checkout"), Path(name, "kit"))
        for crate in ("gm_low", "gm_high", "gmr", "gm_tests"):
            for part in ("src", "proofs/main", "must-fail"):
                (made.folder / "crates" / crate / part).mkdir(parents=True)
            (made.folder / "crates" / crate / "src" / "main.rt").write_text(f"fn {crate}() {{}}\n", encoding="utf-8")
            (made.folder / "crates" / crate / "proofs" / "main" / "Answers.antt").write_text("-\n", encoding="utf-8")
        (made.folder / "bench").mkdir()
        (made.folder / "bench" / "unproved").write_text(BUILDER, encoding="utf-8")
        (made.folder / "crates.txt").write_text(CRATES, encoding="utf-8")
        (made.folder / "python").mkdir()
        for file in ("gmr", "python/VERSION"):
            shutil.copy(ROOT / file, made.folder / file)
        made.kit.mkdir()
        if has_toolchain:
            put_program(made.kit / "rt", RT)
            put_program(made.kit / "rattle", "exit 1")
            (made.kit / "version").write_text("rattle-kit-13f logic dac8208d650f15bf\n", encoding="utf-8")
        yield made


def completions(folder: Path, function: str, *words: str) -> list[str]:
    """What bash offers, by that function, for the last of these words, the first of which is the program's name."""
    script = (f'source "{ROOT}/editors/bash/gmr"; COMP_WORDS=("$@"); COMP_CWORD=$(($# - 1)); {function} "$1"; '
              'printf "%s\\n" "${COMPREPLY[@]}"')
    done = subprocess.run(["bash", "-c", script, "bash", *words], cwd=folder, capture_output=True, text=True,
                          check=True)
    return sorted(done.stdout.split())
