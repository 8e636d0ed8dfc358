"""Files of the folder are opened, saved, imported and exported, and sessions that ended without a save come back."""
import tempfile
from argparse import ArgumentTypeError
from fractions import Fraction
from pathlib import Path
from typing import Any

from gmr import program
from gmr.errors import Fault
from gmr.mesh.convert import Options, export_map, import_mesh
from gmr.mesh.embeds import Colours
from gmr.mesh.formats import list_written
from gmr.mesh.model import Unfit
from gmr.mesh.scale import Frame, parse_scale, read_frame
from gmr.studio.answers import book_of, told, whole
from gmr.studio.folder import Folder
from gmr.studio.requests import Unclear, text_in
from gmr.studio.rulebook import Text, text_of
from gmr.studio.session import Session
from gmr.studio.store import Store

Json = dict[str, Any]
PAINT = (150, 175, 205)     # the colour of faces where a book wants one and the mesh has none
# What these files say stands in them alone. Other formats name further files, which could lie anywhere.
MESHES = (".obj", ".off", ".ply", ".stl", ".vtk", ".vtu", ".msh", ".mesh", ".inp")
KINDS = {"map": (".gmap",), "start": (".gmap",), "book": (".gbook",), "script": (".gscript",), "mesh": MESHES}


def list_files(session: Session, body: Json) -> Json:
    """The names of the folder's files of a kind."""
    kind = text_in(body, "kind")
    if kind not in KINDS:
        raise Unclear(f"a kind of files is {', '.join(KINDS)}")
    return {"names": session.folder.list(KINDS[kind]), "folder": session.folder.path.name, "written": list_written()}


def open_file(session: Session, body: Json) -> Json:
    """Opens a map, which begins a new script; a book; or a script, which is run from the start."""
    kind, name = text_in(body, "kind"), text_in(body, "name")
    data = session.folder.read(name)
    if kind == "map":
        session.begin(data, session.book)
        return take_name(session, "map", name, whole(session, (f"opened {name}",)))
    if kind == "book":
        done = session.change_book(text_of(data))
        answer = {**told(session, done), "book": book_of(session) if done.rows is not None else None}
        return take_name(session, "book", name, answer) if done.rows is not None else answer
    if kind == "script":
        done = session.run_script(text_of(data).letters, "")
        answer = told(session, done)
        return take_name(session, "script", name, answer) if done.rows is not None else answer
    raise Unclear("a map, a book or a script is opened")


def take_name(session: Session, kind: str, name: str, answer: Json) -> Json:
    """The answer, with the name that a file has from now on."""
    session.names[kind] = name
    session.write_script()
    answer["state"]["names"] = dict(session.names)
    return answer


def save(session: Session, body: Json) -> Json:
    """Saves the map, the book or the script under a name.

    The map that is saved is what a run of the whole script makes of the start map and the book; where that isn't
    the map that is shown, nothing is saved.
    """
    kind, name = text_in(body, "kind"), text_in(body, "name")
    if kind not in SAVERS:
        raise Unclear(f"what can be saved is {', '.join(SAVERS)}")
    if not name.endswith(KINDS[kind]):
        raise Unclear(f"the name of a {kind} ends with {KINDS[kind][0]}")
    if session.folder.is_taken(name) and body.get("over") is not True:
        return {"asks": f"{name} is there already", "name": name}
    line = SAVERS[kind](session, name)
    if kind != "start":
        session.names[kind] = name
    session.unsaved.discard(kind)
    session.write_script()
    return {"answer": [line], "why": [], "names": session.names, "unsaved": sorted(session.unsaved)}


def save_map(session: Session, name: str) -> str:
    """Runs the whole script and saves the map that it leaves."""
    piece = session.timeline.session.run_text(session.timeline.start, session.script())
    data = piece.map.read_bytes()
    piece.map.unlink()
    if rows_of(data) != rows_of(session.shown.read_bytes()):
        raise program.Refused("the script, run from its start, gives another map than the one that is shown", 1)
    session.folder.write(name, data)
    return f"{piece.report[-1]}; saved as {name}"


def rows_of(text: bytes) -> bytes:
    """The lines of a map's text that its darts have."""
    return text.split(b"\ndarts ", 1)[1]


def save_book(session: Session, name: str) -> str:
    """Saves the book's text as it was written."""
    session.folder.write(name, session.book.data())
    refused = [rule["name"] for rule in session.described["rules"] if rule["fault"]]
    return f"saved as {name}" + (f"; a run takes it only without {', '.join(refused)}" if refused else "")


def save_script(session: Session, name: str) -> str:
    """Saves the script so far."""
    session.folder.write(name, session.script().encode("utf-8"))
    return f"saved as {name}" + ("; the lines that weren't run are not in it" if session.rest.strip() else "")


def save_start(session: Session, name: str) -> str:
    """Saves the map with which the script begins, as it was given."""
    session.folder.write(name, session.timeline.start.read_bytes())
    return f"saved as {name}: the map with which the script begins"


SAVERS = {"map": save_map, "start": save_start, "book": save_book, "script": save_script}


def import_file(session: Session, body: Json) -> Json:
    """Makes a map of a mesh's file, and begins a new script."""
    name = text_in(body, "name")
    scale = scale_in(body)
    text, line = import_data(name, session.folder.read(name), scale, wants_paint(session.book))
    session.begin(text, session.book)
    return take_name(session, "map", f"{Path(name).stem}.gmap", whole(session, (line,)))


def scale_in(body: Json) -> Fraction | None:
    """The scale that a request tells."""
    text = text_in(body, "scale", "")
    try:
        return parse_scale(text) if text else None
    except (ValueError, ArgumentTypeError) as error:
        raise Unclear(f"the scale: {error}") from None


def wants_paint(book: Text) -> bool:
    """Whether a book's maps have colours of faces."""
    return "embed paint <0 1> rgb" in " ".join(book.letters.split())


def import_data(name: str, data: bytes, scale: Fraction | None, is_painted: bool) -> tuple[bytes, str]:
    """The text of the map of a mesh that bytes are, and what the package tells of it. The name's suffix tells the
    format; the file is read alone, in a folder of its own."""
    if not name.lower().endswith(MESHES):
        raise Unclear(f"{name}: a map ends with .gmap, and a mesh with one of {' '.join(MESHES)}")
    with tempfile.TemporaryDirectory(prefix="gmr-studio-") as folder:
        model, out = Path(folder, f"mesh{Path(name).suffix}"), Path(folder, "mesh.gmap")
        model.write_bytes(data)
        try:
            colours = Colours(paint=PAINT) if is_painted else Colours()
            line = import_mesh(model, out, Options(scale=scale, colours=colours))
        except Unfit as fault:
            raise Fault(fault.line, name) from None
        return out.read_bytes(), line


def export_file(session: Session, body: Json) -> Json:
    """Writes the map as a mesh."""
    name = text_in(body, "name")
    if not name.lower().endswith(tuple(list_written())):
        raise Unclear(f"meshes are written as {' '.join(list_written())}")
    if session.folder.is_taken(name) and body.get("over") is not True:
        return {"asks": f"{name} is there already", "name": name}
    scale = scale_in(body)
    with tempfile.TemporaryDirectory(prefix="gmr-studio-") as folder:
        given, out = Path(folder, "map.gmap"), Path(folder, f"mesh{Path(name).suffix}")
        given.write_bytes(session.shown.read_bytes())
        try:
            line = export_map(given, out, read_frame(session.timeline.start) if scale is None else Frame(scale))
        except Unfit as fault:
            raise Fault(fault.line, name) from None
        session.folder.write(name, out.read_bytes())
    return {"answer": [f"{line}; written as {name}"], "why": []}


def restore(session: Session, body: Json) -> Json:
    """Goes on with an earlier session that ended without a save."""
    earlier = text_in(body, "session")
    facts, start, book, script = session.store.files_of(earlier)
    draft = session.store.draft_of(earlier)
    session.begin(start, text_of(book))
    done = session.run_script(script.decode("utf-8"), "")
    session.names.update({kind: str(facts.get(kind, "")) for kind in ("map", "book", "script")})
    session.unsaved |= {"script", "book"}
    session.keep_draft(draft or session.book.letters)
    session.write_script()
    session.store.forget(earlier)
    return {**whole(session, done.lines, done.why), "offered": session.store.list_offered()}


def forget(session: Session, body: Json) -> Json:
    """Removes an earlier session."""
    session.store.forget(text_in(body, "session"))
    return {"offered": session.store.list_offered()}


def begin_session(folder: Folder, store: Store, model: str, book: str, scale: str) -> Session:
    """A session with a map or a mesh of the folder, and a book."""
    rules = folder.read(book)
    data = folder.read(model)
    names = {"map": model, "book": book, "script": f"{Path(model).stem}.gscript"}
    if not model.lower().endswith(KINDS["map"]):
        data, _ = import_data(model, data, scale_in({"scale": scale}), wants_paint(text_of(rules)))
        names["map"] = f"{Path(model).stem}.gmap"
    return Session(folder, store, names, data, rules)
