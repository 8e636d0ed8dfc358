"""How long a click takes in a large map, from the click's event to the end of the first picture that shows what it did."""
import os
import tempfile
from collections.abc import Callable, Iterator
from contextlib import contextmanager
from pathlib import Path
from typing import Any, NamedTuple

import browser
import numpy as np
from gmr.maps import Embed, Map
from page_of_studio import Page, the_browser
from site_of_studio import BOOK, Site

RADII = 100_000, 40_000     # of a torus, and of the circle that it is swept by
EMBEDS = [Embed("pos", (1, 2), "vec3"), Embed("paint", (0, 1), "rgb")]
# From here on, what a click does is timed: when it is felt, when the answer is there, when the buffers are as they
# are to be drawn, and when the picture is drawn, which is waited for; and counted: the bytes of the answer and of the
# buffers that are sent to the card, and the pictures since the click.
WATCH = """
const {studio, stage} = gmr, {viewer} = stage, times = window.times = {}, {unwired} = gmr;
const gl = viewer.renderer.getContext(), pixel = new Uint8Array(4), draw = viewer.drawNow.bind(viewer);
window.addEventListener('click', () => { times.click = times.click || performance.now(); }, true);
gmr.unwired = (bytes) => {
  const answer = unwired(bytes);
  if (answer.changes) Object.assign(times, {answer: performance.now(), wire: bytes.byteLength});
  return answer;
};
viewer.drawNow = () => {
  if (times.click && !times.drawn) times.pictures = (times.pictures || 0) + 1;
  if (!times.answer || times.drawn) return draw();
  times.ready = performance.now();
  draw();
  gl.readPixels(0, 0, 1, 1, gl.RGBA, gl.UNSIGNED_BYTE, pixel);   // comes when all that was asked for is drawn
  Object.assign(times, {drawn: performance.now(), buffers: viewer.sent, calls: viewer.calls, triangles: viewer.triangles});
};"""


class Took(NamedTuple):
    """Seconds from a click: until the answer was there, until all was ready to be drawn, and until it was drawn. Those
    of a processor that the page's own thread and the studio with its program took. The bytes of the answer, and of the
    buffers that were sent to the card. The calls and the triangles of the picture, and how many pictures were drawn."""
    answer: float
    ready: float
    drawn: float
    page: float
    studio: float
    wire: int
    buffers: int
    calls: int
    triangles: int
    pictures: int


def torus(count: int) -> Map:
    """A torus of squares with about `count` darts, a point on each vertex and a colour on each face: square s has the
    darts 8s to 8s + 7, two to each side, round it."""
    side = round((count / 8) ** 0.5)
    row, column, dart = (axis.ravel() for axis in np.meshgrid(*map(np.arange, (side, side, 8)), indexing="ij"))
    here = 8 * (row * side + column)
    below, right = np.array([(0, 0), (1, 0), (1, 1), (0, 1)])[(dart + 1) // 2 % 4].T
    over = np.array([(0, -1, 5), (1, 0, 7), (0, 1, 1), (-1, 0, 3)])[dart // 2]
    across = 8 * ((row + over[:, 0]) % side * side + (column + over[:, 1]) % side) + over[:, 2] - dart % 2
    alpha = np.stack([here + (dart ^ 1), here + (dart + np.where(dart % 2, 1, -1)) % 8, across])
    turn, tilt = (2 * np.pi * (axis % side) / side for axis in (row + below, column + right))
    wide = RADII[0] + RADII[1] * np.cos(tilt)
    points = np.stack([wide * np.cos(turn), wide * np.sin(turn), RADII[1] * np.sin(tilt)], axis=1).round().astype(int)
    paint = np.tile([150, 175, 205], (len(row), 1))
    return Map.from_arrays(alpha, EMBEDS, {"pos": points, "paint": paint})


@contextmanager
def open_torus(count: int) -> Iterator[Page]:
    """The page of a studio over a torus of about `count` darts, on which clicks are timed."""
    with tempfile.TemporaryDirectory(prefix="gmr-studio-test-") as name:
        torus(count).save(Path(name, "torus.gmap"))
        Path(name, "values2.gbook").write_bytes(BOOK.read_bytes())
        site = Site(Path(name), "torus.gmap", "values2.gbook")
        try:
            page = Page(the_browser(), site)
            page.js(WATCH)
            yield page
            faults = browser.faults(page.driver)
            page.driver.get("about:blank")
            assert not faults, faults
        finally:
            site.end()


def spent(page: Page) -> tuple[float, float]:
    """The seconds of a processor that the page's thread and the studio with its programs took so far."""
    words = Path(f"/proc/{page.site.process.pid}/stat").read_text(encoding="ascii").rsplit(")", 1)[1].split()
    return browser.cpu_seconds(page.driver), sum(map(int, words[11:15])) / os.sysconf("SC_CLK_TCK")


def timed(page: Page, act: Callable[[], None]) -> Took:
    """How long it takes until what a click asks for is seen."""
    page.js("clearTimeout(gmr.choice.resting); for (const name of Object.keys(times)) delete times[name]")
    before = spent(page)
    act()
    page.wait("the picture", lambda: page.js("return times.drawn"))
    after = spent(page)
    found = page.js("return times")
    page.js("gmr.stage.light([], 'new')")
    seconds = [(found[name] - found["click"]) / 1000 for name in ("answer", "ready", "drawn")]
    taken = [two - one for one, two in zip(before, after)]
    return Took(*(round(it, 3) for it in (*seconds, *taken)), *(found[name] for name in Took._fields[5:]))


def press(page: Page, name: str) -> Callable[[], None]:
    """What clicks a button of the page."""
    return lambda: page.js(f"document.getElementById('{name}').click()")


def choose(page: Page, rule: str, *values: Any) -> None:
    """Chooses a rule, and waits until nothing is asked any more."""
    page.choose(rule)
    page.give(*values)


def time_clicks(page: Page) -> dict[str, Took]:
    """How long local operations take, and an operation over all faces, and their ways back."""
    found: dict[str, Took] = {}
    count = page.darts()
    dart = page.seen(range(count // 3, count, 97))
    for rule, values in (("set_point_2d", [[0, 0, 0]]), ("triangulate_at_middle", [])):
        choose(page, rule, *values)
        place = page.pixel(dart)
        found[rule] = timed(page, lambda: page.click_at(place))
        found[f"{rule}, undone"] = timed(page, press(page, "do-undo"))
    for rule, values in (("paint_face", [[220, 120, 40], 0]), ("triangulate_at_middle", [])):
        choose(page, rule, *values)
        found[f"each {rule}"] = timed(page, press(page, "each"))
        found[f"each {rule}, undone"] = timed(page, press(page, "do-undo"))
    return found


def test_a_click_is_seen_soon_in_a_large_map() -> None:
    """What is sent is what changed, it is drawn at once, and the processors are busy for no longer than thrice what a
    user waits at most. While something is done no picture is drawn, but one where that takes long."""
    with open_torus(20_000) as page:
        found = time_clicks(page)
        for name in ("set_point_2d", "triangulate_at_middle"):
            took = found[f"{name}, undone"]
            assert took.wire < 2_000 and took.buffers < 50_000, (name, took)
            assert took.page + took.studio < 0.9, (name, took)
        for took in (found["each paint_face"], found["each paint_face, undone"]):
            assert took.wire < 4 * 20_000 and took.buffers < 4 * 20_000, took     # three bytes of a colour
        assert all(took.calls <= 4 and took.pictures <= 2 for took in found.values()), found
        assert all(took.triangles < 16_000 for name, took in found.items() if name != "each triangulate_at_middle"), found
