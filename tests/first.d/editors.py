"""Tests of the files for editors and shells."""
import tempfile
from pathlib import Path

from standins import ROOT, completions


def test_completion() -> None:
    """Commands, and files by their endings."""
    with tempfile.TemporaryDirectory() as name:
        folder = Path(name)
        for file in ("a.gmap", "b.gbook", "c.gscript", "d.txt"):
            (folder / file).touch()
        assert completions(folder, "_gmr", "gmr", "c") == ["cells", "check"]
        assert completions(folder, "_gmr", "gmr", "--p") == ["--prove"]
        assert completions(folder, "_gmr", "gmr", "run", "") == ["a.gmap"]
        assert completions(folder, "_gmr", "gmr", "run", "a.gmap", "") == ["b.gbook"]
        assert completions(folder, "_gmr", "gmr", "run", "a.gmap", "b.gbook", "") == ["c.gscript"]
        for word in ("--unproved", "--prove"):
            assert completions(folder, "_gmr", "gmr", word, "ch") == ["check"]
            assert completions(folder, "_gmr", "gmr", word, "check", "") == ["b.gbook"]
        assert completions(folder, "_gmr", "gmr", "grid", "") == []


def test_vim_knows_the_formats_words() -> None:
    """Each keyword of the formats has a colour."""
    syntax = (ROOT / "editors" / "vim" / "syntax" / "gmr.vim").read_text(encoding="utf-8").split()
    text = (ROOT / "docs" / "FORMATS.md").read_text(encoding="utf-8")
    keywords = text.split("The keywords are no names: `")[1].split("`")[0].split()
    assert not [word for word in keywords if word not in syntax]
