"""Runs the blocks of Python of a document, one after another, in the folder where it is called.

    run_document.py DOCUMENT TOP    the checkout's top, whose examples are copied here

A line that ends with `# TEXT` and calls
`print` must print TEXT."""
import contextlib
import io
import os
import re
import shutil
import sys
from pathlib import Path


# A file of a reader's own, with four sides and a bottom.
PYRAMID = "".join(f"v {x} {y} {z}\n" for x, y, z in ((0, 0, 0), (2, 0, 0), (2, 2, 0), (0, 2, 0), (1, 1, 1.5)))
PYRAMID += "f 4 3 2 1\nf 1 2 5\nf 2 3 5\nf 3 4 5\nf 4 1 5\n"


def blocks_of(text: str) -> list[str]:
    """The blocks of Python of a document, between lines of three backticks."""
    return re.findall(r"^```python\n(.*?)^```$", text, re.MULTILINE | re.DOTALL)


def run_blocks(document: Path, top: Path) -> int:
    """Runs the blocks in this folder, with the examples beside them: how many there are. AssertionError where one
    prints something else than it says."""
    for example in (top / "examples" / "python").iterdir():
        shutil.copy(example, example.name)
    for example in ("cube.obj", "subdivision/subdivision.gbook"):
        shutil.copy(top / "examples" / example, Path(example).name)
    Path("pyramid.obj").write_text(PYRAMID, encoding="ascii")
    names: dict[str, object] = {}
    blocks = blocks_of(document.read_text(encoding="utf-8"))
    for block in blocks:
        wanted = re.findall(r"print\(.*\)\s+# (.*)$", block, re.MULTILINE)
        printed = io.StringIO()
        with contextlib.redirect_stdout(printed):
            exec(compile(block, os.fspath(document), "exec"), names)
        assert printed.getvalue().splitlines() == wanted, f"{block}\nprints\n{printed.getvalue()}"
    return len(blocks)


if __name__ == "__main__":
    print(f"{run_blocks(Path(sys.argv[1]), Path(sys.argv[2]))} blocks ran")
