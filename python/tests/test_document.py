"""Each block of docs/PYTHON.md runs, and prints what it says."""
from pathlib import Path

import pytest
from run_document import run_blocks

TOP = Path(__file__).resolve().parents[2]


def test_document(tmp_path: Path, monkeypatch: pytest.MonkeyPatch) -> None:
    """The blocks run in a folder of their own."""
    monkeypatch.chdir(tmp_path)
    assert run_blocks(TOP / "docs" / "PYTHON.md", TOP) >= 10
