"""The evaluator in Python says of random expressions what the program says: true, false, or no value."""
import random
import subprocess
from pathlib import Path

from gmr.books import tokens_of
from gmr.expressions import NoValue, Reader, Scene, value_of
from gmr.maps import read_map
from gmr.program import find_program

CASES, A_BOOK, DEPTH = 500, 250, 3
EMBEDS = "embed pos <1 2> vec3\nembed tag <0 1> int\nembed hue <0 1> rgb\n"
TERMS = ("a", "a@0", "a@1", "a@0@1", "a@2@0")
NUMBERS = ("0", "1", "2", "3", "7", "100", "4611686018427387904", "9223372036854775807")


def two_squares() -> str:
    """Two squares that share a side, with points, a number and a colour on each."""
    around = 7, 2, 1, 4, 3, 6, 5, 0
    points = "(0 0 1)", "(4 0 -2)", "(4 5 3)", "(0 5 0)", "(9 0 6)", "(9 5 -7)"
    corners = (0, 1, 1, 2, 2, 3, 3, 0), (1, 4, 4, 5, 5, 2, 2, 1)
    lines = []
    for dart in range(16):
        square, place = divmod(dart, 8)
        across = {2: 15, 3: 14, 14: 3, 15: 2}.get(dart, dart)
        value = f"{points[corners[square][place]]} {('-5 (10 200 255)', '12 (0 9 30)')[square]}"
        lines.append(f"{dart} {dart ^ 1} {8 * square + around[place]} {across} {value}\n")
    return f"gmap 1\ndim 2\n{EMBEDS}darts 16\n" + "".join(lines)


def draw_number(choose: random.Random, depth: int) -> str:
    """An expression of a number."""
    term = choose.choice(TERMS)
    if depth == 0:
        collector = choose.choice(("count<0 1>({})", "sum<1 2>({}.tag)", "min<0 1 2>({}.tag)", "max<0 1 2>({}.tag)"))
        part = choose.choice(("red", "green", "blue"))
        return choose.choice((choose.choice(NUMBERS), f"{term}.tag", collector.format(term), f"{part}({term}.hue)"))
    first, second = draw_number(choose, depth - 1), draw_number(choose, depth - 1)
    return choose.choice((f"({first} {choose.choice('+-*/%')} {second})", f"(-{first})",
                          f"{choose.choice('xyz')}({draw_vector(choose, depth - 1)})",
                          f"(if {draw_truth(choose, depth - 1)} then {first} else {second})"))


def draw_vector(choose: random.Random, depth: int) -> str:
    """An expression of a vector."""
    term = choose.choice(TERMS)
    if depth == 0:
        return choose.choice((f"{term}.pos", f"sum<0 1>({term}.pos)", f"sum<0 1>({term}.hue)"))
    first, number = draw_vector(choose, depth - 1), draw_number(choose, depth - 1)
    return choose.choice((f"({first} {choose.choice('+-')} {draw_vector(choose, depth - 1)})",
                          f"({number} * {first})", f"({first} / {number})", f"(-{first})",
                          f"vec3({number}, {draw_number(choose, 0)}, {draw_number(choose, 0)})"))


def draw_truth(choose: random.Random, depth: int) -> str:
    """An expression of a truth."""
    if depth == 0:
        return choose.choice(("true", "false", f"same({choose.choice(TERMS)}, {choose.choice(TERMS)})"))
    first, second = draw_number(choose, depth - 1), draw_number(choose, depth - 1)
    return choose.choice((f"({first} {choose.choice(('<', '<=', '>', '>=', '==', '!='))} {second})",
                          " ".join((f"({draw_vector(choose, depth - 1)}", choose.choice(("==", "!=")),
                                    f"{draw_vector(choose, depth - 1)})")),
                          f"(not {draw_truth(choose, depth - 1)})",
                          " ".join((f"({draw_truth(choose, depth - 1)}", choose.choice(("and", "or")),
                                    f"{draw_truth(choose, depth - 1)})"))))


def test_random_expressions(tmp_path: Path) -> None:
    """Each stands as the precondition of a rule that changes nothing, and is tried at a dart."""
    choose, text, answers = random.Random(11), two_squares(), set()
    amap = read_map(text)
    (tmp_path / "squares.gmap").write_text(text, encoding="ascii")
    for _ in range(CASES // A_BOOK):
        drawn = []
        while len(drawn) < A_BOOK:
            expression = draw_truth(choose, DEPTH)
            if len(list(tokens_of(expression))) <= 256:
                drawn.append((expression, choose.randrange(16)))
        rules = "".join(f"rule r{number} left a <> hook right a <> pre {expression}\n"
                        for number, (expression, _) in enumerate(drawn))
        (tmp_path / "all.gbook").write_text(f"book 1\ndim 2\n{EMBEDS}{rules}", encoding="ascii")
        script = "".join(f"apply r{number} {dart}\n" for number, (_, dart) in enumerate(drawn))
        (tmp_path / "all.gscript").write_text(script, encoding="ascii")
        files = [tmp_path / name for name in ("squares.gmap", "all.gbook", "all.gscript", "out.gmap")]
        words = [find_program(), "run", *files]
        said = subprocess.run(words, stdout=subprocess.PIPE, text=True, check=False).stdout.splitlines()
        for (expression, dart), line in zip(drawn, said, strict=False):
            told = line.split(" ", 3)
            try:
                is_true = value_of(Reader(expression, tokens_of(expression)).expression(), Scene(amap, {}, {"a": dart}))
                answer = "done" if is_true else "pre-false"
            except NoValue:
                answer = "pre-no-value"
            assert answer == ("done" if told[2] == "done" else told[3]), (expression, dart, line)
            answers.add(answer)
        assert len(said) == len(drawn) + 1, said[:2]
    assert answers == {"done", "pre-false", "pre-no-value"}
