"""The files of a session, in a folder of its own within the folder of the studio.

They are the map that it began with, its book and its script, which is written after each statement: a crash loses
nothing. A session that ended without a save is offered again at the next start."""
import fcntl
import json
import os
import shutil
from pathlib import Path
from typing import Any

from gmr.studio.folder import KEPT_APART, Folder, Outside

START, BOOK, SCRIPT, FACTS, LOCK = "start.gmap", "book.gbook", "script.gscript", "session.json", "lock"
DRAFT = "draft.gbook"       # the book's text as it is being written, where that isn't taken yet
MOST_SESSIONS = 1_000


class Store:
    """The folder of one session, locked as long as the session lives."""

    def __init__(self, folder: Folder) -> None:
        self.all = folder.path / KEPT_APART
        if self.all.is_symlink() or self.all.exists() and not self.all.is_dir():
            raise Outside(f"{KEPT_APART} in the folder is no folder, or a link")
        self.all.mkdir(exist_ok=True)
        self.path, self.lock = self._take_next()

    def _take_next(self) -> tuple[Path, int]:
        for number in range(1, MOST_SESSIONS):
            path = self.all / str(number)
            try:
                path.mkdir()
            except FileExistsError:
                continue
            return path, locked(path)
        raise Outside(f"{KEPT_APART} holds {MOST_SESSIONS - 1} sessions; remove what isn't needed")

    def write(self, name: str, data: bytes) -> None:
        """Writes one of the session's files, whole or not at all."""
        beside = self.path / f"{name}.new"
        with open(beside, "wb") as file:
            file.write(data)
            file.flush()
            os.fsync(file.fileno())
        beside.replace(self.path / name)

    def write_facts(self, facts: dict[str, Any]) -> None:
        """Writes what is known of the session: the names of its files, and whether all of it is saved."""
        self.write(FACTS, json.dumps(facts).encode("utf-8"))

    def list_offered(self) -> list[dict[str, Any]]:
        """What is known of each earlier session that ended without a save, the latest first."""
        found = []
        for path in self.all.iterdir():
            facts = facts_of(path)
            if path != self.path and facts and not facts.get("saved") and not is_alive(path):
                script = path / SCRIPT
                found.append({**facts, "session": path.name, "at": script.stat().st_mtime if script.exists() else 0})
        return sorted(found, key=lambda facts: -float(facts["at"]))

    def files_of(self, session: str) -> tuple[dict[str, Any], bytes, bytes, bytes]:
        """The facts, the start map, the book and the script of an earlier session that is offered."""
        facts = next((one for one in self.list_offered() if one["session"] == session), None)
        if facts is None:
            raise Outside("there is no such session")
        path = self.all / session
        return facts, *((path / name).read_bytes() for name in (START, BOOK, SCRIPT))    # type: ignore[return-value]

    def draft_of(self, session: str) -> str:
        """The text of a book that was being written in an earlier session that is offered; empty where none was."""
        self.files_of(session)
        path = self.all / session / DRAFT
        return path.read_text(encoding="utf-8") if path.exists() else ""

    def forget(self, session: str) -> None:
        """Removes an earlier session that is offered."""
        self.files_of(session)
        shutil.rmtree(self.all / session)

    def close(self, is_saved: bool) -> None:
        """Ends the session; its files go where nothing of it would be lost."""
        for path in [self.path] if is_saved else self.path.glob("work.*"):
            shutil.rmtree(path, ignore_errors=True)
        os.close(self.lock)
        try:
            self.all.rmdir()
        except OSError:
            pass


def locked(path: Path) -> int:
    """A descriptor that holds the lock of a session's folder; the system lets go of it when the process ends."""
    lock = os.open(path / LOCK, os.O_RDWR | os.O_CREAT | os.O_CLOEXEC, 0o600)
    fcntl.flock(lock, fcntl.LOCK_EX | fcntl.LOCK_NB)
    return lock


def is_alive(path: Path) -> bool:
    """Whether a process holds the lock of a session's folder."""
    try:
        lock = os.open(path / LOCK, os.O_RDWR | os.O_CLOEXEC)
    except OSError:
        return False
    try:
        fcntl.flock(lock, fcntl.LOCK_EX | fcntl.LOCK_NB)
    except OSError:
        return True
    finally:
        os.close(lock)
    return False


def facts_of(path: Path) -> dict[str, Any] | None:
    """What a session's folder tells, or None where it is none."""
    try:
        facts = json.loads((path / FACTS).read_text(encoding="utf-8"))
    except (OSError, ValueError):
        return None
    return facts if isinstance(facts, dict) else None
