"""A model does what the same script does in one run of the program, whatever is gathered, taken back or refused."""
import random
import subprocess
from collections.abc import Callable
from pathlib import Path

import pytest

import gmr
from gmr.model import session as sessions
from gmr.program import find_program

EXAMPLES = Path(__file__).resolve().parents[2] / "examples"
MAP, BOOK = EXAMPLES / "painted.gmap", EXAMPLES / "points.gbook"


def load(map_file: Path = MAP) -> gmr.Model:
    """The model of a painted square, under the book of five rules."""
    return gmr.Model.load(map_file, book=BOOK)


def run_whole(model: gmr.Model, folder: Path, book: Path = BOOK) -> tuple[list[str], bytes]:
    """The report of a model's script over its first map in one run of the program, and the bytes that it saves."""
    first, script, out = folder / "first.gmap", folder / "whole.gscript", folder / "whole.gmap"
    model.save_first(first)
    model.script.save(script)
    command = [find_program(), "run", first, book, script, out]
    done = subprocess.run(command, stdout=subprocess.PIPE, text=True, check=False)
    assert done.returncode in (0, 1), done.stdout
    return done.stdout.splitlines(), out.read_bytes()


def check_whole(model: gmr.Model, folder: Path) -> list[str]:
    """Asserts that the model's map is that of its script to the byte, and answers the report."""
    report, saved = run_whole(model, folder)
    model.save(folder / "model.gmap")
    assert (folder / "model.gmap").read_bytes() == saved
    return report


def random_step(model: gmr.Model, choose: random.Random) -> list[gmr.Outcome]:
    """One statement of a kind that is drawn."""
    dart = choose.randrange(40)
    colour = (choose.randrange(200), 50, 50)
    steps: list[tuple[int, Callable[[], gmr.Outcome]]] = [
        (4, lambda: model.try_apply("triangulate", at=dart)),
        (4, lambda: model.try_apply("move", at=dart, v=(choose.randrange(9), -3))),
        (4, lambda: model.try_apply("split", at=dart)),
        (4, lambda: model.try_apply("paint", at=dart, colour=colour, least=150)),
        (2, lambda: model.each("edge", "split")),
        (8, lambda: model.run_lines("undo", False)[0]),
        (5, lambda: model.run_lines("redo", False)[0]),
    ]
    texts = ["group apply split 2 apply split 4 end", "group apply split 3 apply paint 0 with (0 0 0) 9 end",
             "undo undo apply move 0 with (1 1) redo undo undo", "undo group apply split 0 apply sew 0 1 end redo"]
    if choose.random() < 0.2 and len(model.map.darts) < 200:
        return model.run_lines(choose.choice(texts), choose.random() < 0.5)
    if len(model.map.darts) > 200:
        return [model.run_lines("undo", False)[0]]
    return [choose.choices([step for _, step in steps], [weight for weight, _ in steps])[0]()]


@pytest.mark.parametrize("seed", range(4))
def test_random_steps(tmp_path: Path, seed: int, monkeypatch: pytest.MonkeyPatch) -> None:
    """Sixty steps that are drawn, with undo and redo: the whole script says of each line that stays what the model said
    of it, and saves the same bytes. With few maps kept, undo reaches back before them."""
    monkeypatch.setattr(sessions, "MOST_KEPT_BYTES", (2_000, 10_000, 2**28, 0)[seed])
    choose, model = random.Random(seed), load()
    outcomes = [outcome for _ in range(60) for outcome in random_step(model, choose)]
    report = check_whole(model, tmp_path)
    kept = [outcome for outcome in outcomes if outcome.end > outcome.begin]
    assert [outcome.line for outcome in kept] == report[:-1]
    assert any(outcome.line.endswith("undo done") for outcome in kept)


def test_version_1(tmp_path: Path) -> None:
    """A first map of version 1 is saved in version 1, also where the greatest names are gone."""
    first = tmp_path / "one.gmap"
    lines = MAP.read_text(encoding="ascii").replace("gmap 2", "gmap 1")
    first.write_text("\n".join(line for line in lines.splitlines() if not line.startswith("next")), encoding="ascii")
    model = load(first)
    model.apply("triangulate", at=0)
    model.undo()
    model.apply("split", at=4)
    assert check_whole(model, tmp_path)[-1].startswith("applied")
    assert (tmp_path / "model.gmap").read_text(encoding="ascii").startswith("gmap 1\ndim 2\n")


def test_refusal_comes_late(tmp_path: Path) -> None:
    """Of gathered statements those before a refused one are done, and it and those after it are not."""
    model = load()
    model.apply("move", at=2, v=(2, 0))
    refused = model.apply("paint", at=0, colour=(10, 20, 30), least=100)
    later = model.apply("triangulate", at=0)
    with pytest.raises(gmr.Refused) as caught:
        model.now()
    assert caught.value.cause == "pre-false" and caught.value.darts == (0,)
    assert caught.value.sentences[-1] == "  so 60 >= 100 is false"
    assert not refused.done and refused.line == "2 paint refused pre-false"
    with pytest.raises(gmr.Refused):
        assert later.done
    assert list(model.script) == ["apply move 2 with (2 0)"]
    check_whole(model, tmp_path)


def test_try_apply() -> None:
    """What is only tried and refused leaves the model as it was, and its outcome tells why."""
    model = load()
    before = model.map.text()
    outcome = model.try_apply("move", at=99, v=(0, 0))
    assert (outcome.done, outcome.cause, outcome.darts) == (False, "no-dart hook 0", (99,))
    assert outcome.line == "1 move refused no-dart hook 0"
    assert outcome.sentences[0].startswith("The script gives dart 99 for the hook a")
    assert not model.script and model.map.text() == before


def test_an_outcome_outlasts_its_model() -> None:
    """What became of a statement is told where the model itself is gone."""
    assert load().try_apply("move", at=99, v=(0, 0)).sentences
    assert len(load().apply("triangulate", at=0).new.darts) == 16


def test_group(tmp_path: Path) -> None:
    """A group is written as one, with what its each comes to, and one undo takes it back; a refusal takes all of it."""
    model = load()
    before = model.map.text()
    with model.group() as whole:
        model.each("edge", "split")
        model.each("face", "triangulate")
        assert len(model.map.darts) > 8
    assert whole.done and model.script[0] == "group" and model.script[-1] == "end"
    assert all(line.startswith("apply") for line in model.script[1:-1])
    check_whole(model, tmp_path)
    assert model.undo().done and model.map.text() == before
    assert model.redo().done
    after = model.map.text()
    with pytest.raises(gmr.Refused), model.group():
        model.each("edge", "split")
        model.apply("move", at=12345, v=(0, 0))
    with pytest.raises(ZeroDivisionError), model.group():
        model.apply("split", at=0)
        assert 1 // 0
    assert model.map.text() == after
    check_whole(model, tmp_path)


def test_new_and_gone() -> None:
    """The darts that a statement made, in the middle of others that were gathered."""
    model = load()
    model.apply("move", at=2, v=(2, 0))
    hit = model.apply("triangulate", at=0)
    model.apply("split", at=4)
    assert hit.new.darts == list(range(8, 24)) and not hit.gone.darts
    assert len(hit.new.vertices()) == 1 and hit.new.map.next == 24
    assert len(model.map.darts) == 26


def test_wrong_words() -> None:
    """Statements that suit no rule are faults at once."""
    model = load()
    for make in (
        lambda: model.apply("trangulate", at=0), lambda: model.apply("triangulate"), lambda: model.apply("move", at=0),
        lambda: model.apply("move", at=(0, 1), v=(0, 0)), lambda: model.apply("move", at=0, v=(0, 0, 0)),
        lambda: model.apply("move", at=-1, v=(0, 0)), lambda: model.each("volume", "split"),
        lambda: model.apply("paint", at=0, colour=(256, 0, 0), least=0), lambda: model.each("faces of it", "split"),
    ):
        with pytest.raises(ValueError):
            make()
    for value in (1, "00", (0.5, 0), (True, 0)):
        with pytest.raises(TypeError):
            model.apply("move", at=0, v=value)  # type: ignore[arg-type]
    for text in ("apply", "apply nothing 0", "group", "apply split 0 1", "end", "apply split 0 ; undo"):
        with pytest.raises(gmr.Refused):
            model.run_lines(text)
    assert not model.script


def test_book_goes_on(tmp_path: Path) -> None:
    """The book may change where the script so far comes to the same map under it."""
    model = load()
    model.apply("triangulate", at=0)
    wider = tmp_path / "wider.gbook"
    wider.write_text(BOOK.read_text(encoding="ascii").replace("rule split", "rule cut"), encoding="ascii")
    model.book = wider
    model.apply("cut", at=4)
    model.now()
    model.undo()
    wrong = tmp_path / "wrong.gbook"
    wrong.write_text(BOOK.read_text(encoding="ascii").replace("rule triangulate", "rule tri"), encoding="ascii")
    with pytest.raises(gmr.Refused):
        model.book = wrong
    assert model.apply("cut", at=0).done


def test_mesh(tmp_path: Path) -> None:
    """A mesh is imported, changed, and exported again."""
    book = tmp_path / "points.gbook"
    rules = (EXAMPLES / "triangulate.gbook").read_text(encoding="ascii").partition("rule")[2]
    book.write_text("book 2 dim 2 embed pos <1 2> vec3 rule"
                    + rules.replace("c <1 2>", "c <1 2> with pos = sum<0 1>(a.pos) / count<0 1>(a)"), encoding="ascii")
    model = gmr.Model.load(EXAMPLES / "cube.obj", book=book)
    model.each("face", "triangulate")
    model.export(tmp_path / "out.off")
    assert (tmp_path / "out.off").read_text(encoding="ascii").split()[1:3] == ["14", "24"]
