"""Tests of what the gate does before its tests: it installs each package that is missing, and no other."""
import os
import subprocess
import tempfile
from pathlib import Path

ROOT = Path(__file__).resolve().parents[2]
QUERY = """#!/bin/bash
for package; do :; done
[ "$package" != gmsh ] || [ -e "$ROOM/done" ] || exit 1
echo -n "install ok installed"
"""
GET = """#!/bin/bash
echo "$@" >>"$ROOM/asked"
[ "$1" = update ] || touch "$ROOM/done"
"""


def test_only_what_is_missing_is_installed() -> None:
    """Where one package of many is missing, that one is asked for; then nothing is."""
    text = (ROOT / ".ci" / "run").read_text(encoding="utf-8")
    parts = text[text.index("packages=("):text.index("# What `rt ci` leaves")]
    with tempfile.TemporaryDirectory() as name:
        for tool, program in (("dpkg-query", QUERY), ("apt-get", GET)):
            Path(name, tool).write_text(program, encoding="utf-8")
            Path(name, tool).chmod(0o755)
        environment = {**os.environ, "PATH": f"{name}:{os.environ['PATH']}", "ROOM": name}
        for _ in range(2):
            said = subprocess.run(["bash", "-c", f"{parts}\ninstall_packages"], env=environment, capture_output=True,
                                  text=True, check=False)
            assert said.stdout == "" and said.stderr == "", said
        asked = Path(name, "asked").read_text(encoding="utf-8").splitlines()
        assert len(asked) == 2 and asked[0].startswith("update") and asked[1].split()[-1] == "gmsh", asked
