"""What a page does for each picture while a large map is turned: what can be shown of that without a graphics card.

The picture is 16 pixels wide and high, so that what is drawn by the processor in the card's place takes next to nothing,
and what is left is the script's part: it is timed round the call that draws, and its calls of WebGL are counted."""
import tempfile
from collections.abc import Iterable
from pathlib import Path
from typing import Any, NamedTuple

import browser
from gmr.view.page import make_page
from gmr.view.scene import scene_of
from page_of_studio import the_browser
from speed import torus

DARTS = 100_000
LAYERS: dict[str, dict[str, Any]] = {
    "faces": {"edges": False}, "faces and edges": {"edges": True},
    "faces, edges, points, darts and links": {"edges": True, "points": True, "darts": True, "links": True},
}
# Turns the map so many times, a picture each. The calls of WebGL are counted, and those that send buffers apart.
TURN = """
const [options, count] = arguments, {viewer} = gmr.page, gl = viewer.renderer.getContext(), kinds = Object.getPrototypeOf(gl);
viewer.set(options);
viewer.drawNow();
const calls = {all: 0, sent: 0}, took = [];
for (const name of Object.getOwnPropertyNames(kinds)) {
  const {value} = Object.getOwnPropertyDescriptor(kinds, name);
  if (typeof value !== 'function') continue;
  gl[name] = function (...words) {
    calls.all += 1;
    if (name.startsWith('buffer')) calls.sent += 1;
    return value.apply(gl, words);
  };
}
for (let turn = 0; turn < count; turn += 1) {
  viewer.pointer.turn(0.1, 0.01);
  viewer.controls.update();
  const begin = performance.now();
  viewer.drawNow();
  took.push(performance.now() - begin);
}
for (const name of Object.getOwnPropertyNames(gl)) delete gl[name];
took.sort((one, two) => one - two);
return {darts: viewer.state.count, calls: viewer.calls, triangles: viewer.triangles, asked: calls.all / count, sent: calls.sent,
  bytes: viewer.sent, least: took[0], middle: took[count >> 1]};"""


class Turned(NamedTuple):
    """Of a picture: the calls that draw, the triangles, and all calls of WebGL. Of all pictures: how many buffers were
    sent, and how many bytes for the last one. The least and the middle one of the script's milliseconds a picture."""
    darts: int
    calls: int
    triangles: int
    asked: float
    sent: int
    bytes: int
    least: float
    middle: float


def turn(layers: Iterable[str] = LAYERS, pictures: int = 12) -> dict[str, Turned]:
    """What a page does for each picture of a torus, by what is shown of it."""
    driver = the_browser()
    with tempfile.TemporaryDirectory(prefix="gmr-studio-test-") as name:
        page = Path(name, "torus.html")
        page.write_text(make_page("torus", {"names": ["torus"], "scenes": [scene_of(torus(DARTS))]}), encoding="utf-8")
        driver.get(page.as_uri())
        driver.execute_script("gmr.page.viewer.renderer.setSize(16, 16, false)")
        found = {what: Turned(**driver.execute_script(TURN, LAYERS[what], pictures)) for what in layers}
        told = browser.faults(driver)
        driver.get("about:blank")
    assert not told, told
    return found


def test_a_large_map_turns_in_few_calls_and_nothing_is_sent() -> None:
    """A picture is a call for each layer and some calls that set them up; no buffer is sent again; and of many pictures
    the script's part of one at least is short, however busy the machine is."""
    faces, edges = found = list(turn(list(LAYERS)[:2]).values())
    assert (faces.calls, edges.calls) == (1, 2), found
    assert faces.triangles < 0.3 * DARTS and edges.triangles < 0.8 * DARTS, found
    for took in found:
        assert took.asked < 40 * took.calls and took.sent == took.bytes == 0, found
        assert took.least < 10, found


def test_what_is_pointed_at_is_found_without_a_picture() -> None:
    """The dart under the pointer is looked up in the buffers that the page has: nothing is drawn, nor read back."""
    driver = the_browser()
    with tempfile.TemporaryDirectory(prefix="gmr-studio-test-") as name:
        page = Path(name, "torus.html")
        page.write_text(make_page("torus", {"names": ["torus"], "scenes": [scene_of(torus(20_000))]}), encoding="utf-8")
        driver.get(page.as_uri())
        asked = driver.execute_script("""
const {viewer} = gmr.page, before = viewer.renderer.info.render.frame, gl = viewer.renderer.getContext();
gl.readPixels = () => { throw new Error('pixels are read'); };
const {clientWidth, clientHeight} = viewer.renderer.domElement;
const hits = Array.from({length: 50}, (_, at) => viewer.hitAt(clientWidth * (0.2 + 0.012 * at), clientHeight / 2));
return [viewer.renderer.info.render.frame - before, hits.filter(Boolean).length];""")
        driver.get("about:blank")
    assert asked[0] == 0 and asked[1] > 20, asked
