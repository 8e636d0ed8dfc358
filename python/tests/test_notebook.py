"""The notebook of examples/python runs from its top to its end, by nbconvert, and its pictures are pictures."""
import json
import os
import subprocess
import sys
from pathlib import Path
from typing import Any
from xml.etree import ElementTree

TOP = Path(__file__).resolve().parents[2]
PACKAGE, NOTEBOOK = TOP / "python", TOP / "examples" / "python" / "cube.ipynb"
PATIENCE = 600      # seconds: a kernel begins slowly on a machine that is busy


def execute(folder: Path) -> list[dict[str, Any]]:
    """What the cells of the notebook print, once it has run; its files are found where it lies."""
    command = [sys.executable, "-m", "nbconvert", "--to", "notebook", "--execute", os.fspath(NOTEBOOK),
               f"--ExecutePreprocessor.timeout={PATIENCE}", "--ExecutePreprocessor.kernel_name=python3",
               "--output", "done", "--output-dir", os.fspath(folder)]
    rooms = {name: os.fspath(folder / name) for name in ("IPYTHONDIR", "JUPYTER_RUNTIME_DIR", "JUPYTER_CONFIG_DIR")}
    done = subprocess.run(command, capture_output=True, text=True, check=False, timeout=2 * PATIENCE,
                          env={**os.environ, **rooms, "PYTHONPATH": os.fspath(PACKAGE)})
    assert done.returncode == 0, done.stderr
    cells = json.loads((folder / "done.ipynb").read_text(encoding="utf-8"))["cells"]
    return [output for cell in cells for output in cell.get("outputs", [])]


def test_notebook(tmp_path: Path) -> None:
    """It prints what it counts, and shows four pictures with something in each."""
    outputs = execute(tmp_path)
    said = "".join("".join(output["text"]) for output in outputs if output.get("name") == "stdout")
    assert said.splitlines() == ["32 darts are new, 80 are there", "(50, 128, 80)", "(16, 24, 10)"]
    shown = [output["data"]["image/svg+xml"] for output in outputs if "data" in output]
    assert len(shown) == 4
    for picture in shown:
        drawn = ElementTree.fromstring("".join(picture).encode("utf-8"))
        assert any(one.tag.endswith("path") and len(one.get("d", "")) > 20 for one in drawn.iter())
