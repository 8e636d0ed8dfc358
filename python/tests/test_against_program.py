"""The matcher and the evaluator in Python say of random applications what the program says, so they don't drift."""
import random
import subprocess
from pathlib import Path

from gmr.books import Book, Rule, load_book, tokens_of
from gmr.expressions import NoValue, Reader, Scene, value_of
from gmr.maps import Map, Value, read_map
from gmr.matches import find_candidate, step_of
from gmr.model.statements import spell
from gmr.program import find_program

LIBRARY = Path(__file__).resolve().parents[2] / "examples" / "operations"
CASES, A_MAP = 500, 10


def first_fault(rule: Rule, amap: Map, hooks: list[int], values: dict[str, Value]) -> str:
    """Why an application is refused, by the matcher and the evaluator, up to its precondition; else 'done'."""
    found = find_candidate(rule, amap, hooks)
    left = [node for node in rule.nodes if node.left is not None]
    for node in left:
        for position in range(found.size()):
            for label in range(amap.dimension + 1):
                if step_of(node.left or (), rule.left_links, node.name, label) is not None:
                    dart = found.darts[node.name][position]
                    if amap.alpha[label][dart] != found.wanted(node, position, label):
                        return f"no-match arc {node.name} {position} {label}"
    seen: dict[int, str] = {}
    for node in left:
        for position, dart in enumerate(found.darts[node.name]):
            if dart in seen:
                return f"no-match same {seen[dart]} {node.name} {position}"
            seen[dart] = f"{node.name} {position}"
    if rule.pre is None:
        return "done"
    scene = Scene(amap, values, {name: darts[0] for name, darts in found.darts.items()})
    try:
        return "done" if value_of(Reader(rule.pre, tokens_of(rule.pre)).expression(), scene) else "pre-false"
    except NoValue:
        return "pre-no-value"


def draw_values(rule: Rule, choose: random.Random) -> dict[str, Value]:
    """Values of a rule's parameters."""
    widths = {"vec2": 2, "vec3": 3, "rgb": 3}
    return {name: choose.random() < 0.5 if kind == "bool" else choose.choice((0, 1, 2, 100)) if kind == "int"
            else tuple(choose.randrange(200) for _ in range(widths[kind])) for name, kind in rule.params}


def draw_cases(book: Book, amap: Map, choose: random.Random) -> list[tuple[Rule, list[int], dict[str, Value]]]:
    """Rules of a book, with darts of a map for their hooks and values."""
    rules = [choose.choice([rule for rule in book.rules if rule.hooks]) for _ in range(A_MAP)]
    darts = amap.darts.tolist()
    return [(rule, [choose.choice(darts) for _ in rule.hooks], draw_values(rule, choose)) for rule in rules]


def test_random_applications(tmp_path: Path) -> None:
    """Each application is tried from the same map, since an undo stands after it."""
    choose, compared, outcomes = random.Random(7), 0, set()
    books = sorted(LIBRARY.glob("*.gbook"))
    while compared < CASES:
        path = choose.choice(books)
        before = choose.choice(sorted((LIBRARY / path.stem).glob("*/before.gmap")))
        amap = read_map(before.read_text(encoding="ascii"))
        if not amap.darts:
            continue
        cases, script = draw_cases(load_book(path), amap, choose), ""
        for rule, hooks, values in cases:
            spelled = " ".join(spell(name, kind, values[name]) for name, kind in rule.params)
            script += f"apply {rule.name} {' '.join(map(str, hooks))}{' with ' + spelled if spelled else ''}\nundo\n"
        (tmp_path / "all.gscript").write_text(script, encoding="ascii")
        words = [find_program(), "run", before, path, tmp_path / "all.gscript", tmp_path / "out.gmap"]
        said = subprocess.run(words, stdout=subprocess.PIPE, text=True, check=False).stdout.splitlines()
        for (rule, hooks, values), line in zip(cases, said[::2]):
            told = line.split(" ", 3)
            cause = "done" if told[2] == "done" or told[3].startswith("no-value") else told[3]
            assert first_fault(rule, amap, hooks, values) == cause, (path.name, before, line, hooks, values)
            outcomes.add(cause.split()[0])
            compared += 1
    assert {"done", "no-match"} <= outcomes
