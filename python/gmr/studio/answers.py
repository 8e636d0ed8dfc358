"""The answers of the studio: what it says of a session as JSON."""
from typing import Any

import numpy as np

from gmr.arrays import Whole
from gmr.studio.session import Done, Session
from gmr.view.scene import changes_of, scene_of

Json = dict[str, Any]


def state_of(session: Session, is_whole: bool = False) -> Json:
    """What the page shows beside the map: the script and what can be done. Of the steps those are sent that differ from
    what was told last, after the first ones, which stay; or all of them."""
    back = session.timeline.taken_back()
    steps = [{"text": step.text, "report": step.report, "came": "undone" if at in back else step.came}
             for at, step in enumerate(session.timeline.steps)]
    kept = 0 if is_whole else same_at_first(session.told, steps)
    session.told = steps
    history, group = session.timeline.session.history, session.group
    return {
        "version": session.version, "names": session.names, "darts": len(session.map.darts), "next": session.map.next,
        "dimension": session.map.dimension, "embeds": [embed._asdict() for embed in session.map.embeds],
        "kept": kept, "steps": steps[kept:], "rest": session.rest, "group": group.lines if group else None,
        "undo": bool(group.lines if group else history.past), "redo": bool(history.future) and not group,
        "unsaved": sorted(session.unsaved),
        "example": {side: count_darts(text) for side, text in session.example.items()},
    }


def same_at_first(one: list[Json], two: list[Json]) -> int:
    """How many of the first things of two lists are alike."""
    for at, (left, right) in enumerate(zip(one, two)):
        if left != right:
            return at
    return min(len(one), len(two))


def bare(numbers: Whole) -> Any:
    """A column as gmr.studio.wire sends it."""
    return np.asarray(numbers, np.int64)


def count_darts(text: bytes) -> int:
    """How many darts a map's text has."""
    return int(text.split(b"\ndarts ", 1)[1].split(b"\n", 1)[0])


def told(session: Session, done: Done) -> Json:
    """What came of a wish, with the state and the changes of the map for the viewer."""
    changes = None if done.rows is None else changes_of(done.rows, session.map, pack=bare)
    return {"answer": done.lines, "why": done.why, "changes": changes, "state": state_of(session)}


def whole(session: Session, lines: tuple[str, ...] = (), why: list[str] | None = None) -> Json:
    """Everything: the state, the book and the scene."""
    return {"answer": lines, "why": why or [], "state": state_of(session, True), "book": book_of(session),
            "draft": session.draft, "scene": scene_of(session.map, pack=bare)}


def book_of(session: Session) -> Json:
    """The book's text and rules."""
    return {**session.described, "text": session.book.letters}
