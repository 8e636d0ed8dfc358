"""What the page can ask for: each action takes the fields of a request and gives an answer as JSON."""
from collections.abc import Callable
from typing import Any

from gmr.books import Rule
from gmr.infer.example import NoRule, compare
from gmr.infer.inference import infer, write_book
from gmr.infer.search import Candidate
from gmr.maps import read_map
from gmr.studio import files
from gmr.studio.answers import book_of, told, whole
from gmr.studio.fits import find_fitting, ranges_of
from gmr.studio.requests import Unclear, name_in, number_in, numbers_in, text_in, values_in, write_value
from gmr.studio.rulebook import Text, describe_text
from gmr.studio.group import group_text
from gmr.studio.session import Done, Session

Json = dict[str, Any]
ZEROS = {"int": "0", "bool": "false", "vec2": "(0 0)", "vec3": "(0 0 0)", "rgb": "(0 0 0)"}
OF_VALUES = ("pre-false", "pre-no-value", "no-value")
MOST_INFERRED = 20_000      # darts of an example


def show(session: Session, _: Json) -> Json:
    """All that the page needs at its start."""
    return {**whole(session), "offered": session.store.list_offered()}


def values_text(session: Session, rule: Rule, body: Json) -> str:
    """The values of a rule's parameters as a script has them, with a blank before."""
    kinds = [kind for _, kind in rule.params]
    values = values_in(body, "values", kinds) if kinds else []
    return f" with {' '.join(map(write_value, values))}" if values else ""


def apply_text(session: Session, body: Json) -> str:
    """The line of an application."""
    rule = session.rule(name_in(body, "rule"))
    hooks = "".join(f" {dart}" for dart in numbers_in(body, "hooks"))
    return f"apply {rule.name}{hooks}{values_text(session, rule, body)}"


def apply(session: Session, body: Json) -> Json:
    """Applies a rule at the darts of its hooks."""
    return told(session, session.do(apply_text(session, body)))


def each(session: Session, body: Json) -> Json:
    """Applies a rule at each orbit over labels."""
    rule = session.rule(name_in(body, "rule"))
    labels = numbers_in(body, "labels", session.map.dimension + 1)
    text = f"each <{' '.join(map(str, labels))}> {rule.name}{values_text(session, rule, body)}"
    return told(session, session.do(text))


def each_chosen(session: Session, body: Json) -> Json:
    """Applies a rule at each of the darts that are named, whole or not at all."""
    rule = session.rule(name_in(body, "rule"))
    values, darts = values_text(session, rule, body), numbers_in(body, "darts")
    if not darts:
        raise Unclear("no cell is selected")
    lines = [f"apply {rule.name} {dart}{values}" for dart in darts]
    return told(session, session.do(lines[0] if len(lines) == 1 else group_text(lines)))


def attempt(session: Session, body: Json) -> Json:
    """Says whether a rule would be applied at the darts of its hooks, and why it wouldn't. Nothing changes. Where
    values aren't given yet, what only they decide isn't looked at."""
    rule = session.rule(name_in(body, "rule"))
    if body.get("values") is None:
        hooks = "".join(f" {dart}" for dart in numbers_in(body, "hooks"))
        zeros = "".join(f" {ZEROS[kind]}" for _, kind in rule.params)
        done = session.attempt(f"apply {rule.name}{hooks}{' with' if zeros else ''}{zeros}")
        if any(f" refused {cause}" in done.lines[0] for cause in OF_VALUES):
            done = Done((), ["It fits here; whether it is applied depends on the values."], None)
    else:
        done = session.attempt(apply_text(session, body))
    is_refused = any(" refused " in line for line in done.lines[:1])
    return {"answer": done.lines[:1], "why": done.why, "refused": is_refused}


def fits(session: Session, body: Json) -> Json:
    """The darts that fit as a rule's next hook, as ranges; null where that would take too long."""
    found = find_fitting(session.rule(name_in(body, "rule")), session.map, numbers_in(body, "hooks"))
    return {"fits": None if found is None else ranges_of(found), "count": None if found is None else len(found)}


def go(word: str) -> Callable[[Session, Json], Json]:
    """The action of `undo` or of `redo`."""
    return lambda session, _: told(session, session.go(word))


def group(session: Session, body: Json) -> Json:
    """Begins a group, ends it, or leaves it out."""
    what = text_in(body, "do")
    if what == "begin":
        return told(session, session.begin_group())
    if what in ("end", "leave"):
        return told(session, session.end_group(what == "end"))
    raise Unclear("a group is begun, ended or left out")


def script(session: Session, body: Json) -> Json:
    """Runs another script from the start, in the place of the one so far."""
    done = session.run_script(text_in(body, "text"), text_in(body, "rest", ""))
    return told(session, done)


def book(session: Session, body: Json) -> Json:
    """Takes another text of the book."""
    done = session.change_book(Text(text_in(body, "text"), "utf-8"))
    answer = told(session, done)
    return {**answer, "book": book_of(session) if done.rows is not None else None}


def check(session: Session, body: Json) -> Json:
    """What the program says of a book's text that is being written, which is kept until the book is taken."""
    letters = text_in(body, "text")
    session.keep_draft(letters)
    return describe_text(letters)


def example(session: Session, body: Json) -> Json:
    """Takes the map as it is as the one before or after an operation."""
    side = text_in(body, "side")
    if side not in ("before", "after"):
        raise Unclear("a side is before or after")
    session.example[side] = session.shown.read_bytes()
    return told(session, Done((), [], None))


def make_rule(session: Session, body: Json) -> Json:
    """Makes a rule of the example, which isn't in the book yet."""
    name = name_in(body, "name")
    if set(session.example) != {"before", "after"}:
        raise Unclear("an example has a map before and a map after")
    if any(rule["name"] == name for rule in session.described["rules"]):
        raise Unclear(f"the book has a rule {name} already")
    hook = number_in(body, "hook", 0, 2**24) if body.get("hook") is not None else None
    maps = [read_map(session.example[side].decode("ascii")) for side in ("before", "after")]
    if any(len(it.darts) > MOST_INFERRED for it in maps):
        raise Unclear(f"an example has at most {MOST_INFERRED:,} darts")
    return infer_rule(maps, hook, name)


def infer_rule(maps: list[Any], hook: int | None, name: str) -> Json:
    """The rule that makes the second map of the first, as a book's text, with what is doubtful about it as comments;
    or why there is none."""
    try:
        found = compare(*maps)
        try:
            candidate: Candidate | None = infer(found, hook=hook, name=name)
            why: list[str] = []
        except NoRule as none:
            candidate, why = none.candidate, [f"No rule was found: {none}."]
    except (NoRule, ValueError) as fault:
        return {"text": None, "why": [f"No rule was found: {fault}."]}
    if candidate is None:
        return {"text": None, "why": why}
    text = write_book(found, candidate, name)
    return {"text": text, "why": why, "script": candidate.script(name), "book": describe_text(text)}


ACTIONS: dict[str, Callable[[Session, Json], Json]] = {
    "show": show, "apply": apply, "each": each, "each_chosen": each_chosen, "try": attempt, "fits": fits,
    "undo": go("undo"), "redo": go("redo"), "group": group, "script": script, "book": book, "check": check,
    "example": example, "infer": make_rule,
    "files": files.list_files, "open": files.open_file, "save": files.save, "import": files.import_file,
    "export": files.export_file, "restore": files.restore, "forget": files.forget,
}
CHANGING = {"apply", "each", "each_chosen", "undo", "redo", "group", "script", "book", "open", "import", "restore",
            "example"}
UNLOCKED = {"check", "fits"}    # what looks at no more than a text, or the map as it is, which nothing changes
