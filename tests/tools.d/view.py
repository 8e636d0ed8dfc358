"""Tests of tools/view and of the viewer, in a browser without a network."""
import json
import subprocess
import sys
import tempfile
from collections.abc import Callable
from pathlib import Path
from typing import Any

from gmr.maps import Map, read_map
from gmr.view import assets
from gmr.view.page import make_page
from gmr.view.scene import changes_between, pack, scene_of
from draw import torus

ROOT = Path(__file__).resolve().parents[2]
sys.path.append(str(ROOT / "tests"))
from browser import PATIENCE, colours, cpu_seconds, faults, open_browser, pixels  # noqa: E402
from selenium.webdriver.common.action_chains import ActionChains  # noqa: E402
from selenium.webdriver.common.keys import Keys  # noqa: E402
from selenium.webdriver.support.wait import WebDriverWait  # noqa: E402

EXAMPLES = ROOT / "examples"
PAGE = """<!doctype html><meta charset="utf-8"><style>html, body, div {margin: 0; height: 100%%}</style>
<div id="room"></div><script>%s</script><script>%s</script>
<script>const viewer = new gmr.Viewer(document.getElementById('room'), {theme: 'light'});</script>"""
OUTSIDE = """const {viewer} = gmr.page, {clientWidth, clientHeight} = viewer.renderer.domElement;
viewer.drawNow();   // where a dart lies in the picture is known when that is drawn
return Array.from(viewer.state.taken(), (slot) => viewer.state.names[slot]).filter((dart) => {
  const {x, y} = viewer.pixelOf(dart);
  return !(x > 0 && y > 0 && x < clientWidth && y < clientHeight);
});"""
SETTINGS = "return gmr.page.viewer.get();"
CORNER = (90, 4)    # a pixel of the picture, beside the map
SCRIPT = ("examples/painted.gmap", "examples/points.gbook", "examples/points.gscript")


MAPS = ("dimension1/cut_edge", "dimension2/barycentric_2d", "dimension2/create_torus", "values3/sew_volumes_that_touch")


def load(name: str) -> Map:
    """A map of the examples."""
    return read_map((EXAMPLES / name).read_text(encoding="ascii"))


def view(*words: str | Path) -> tuple[int, str, str]:
    """The status of tools/view at the top of the checkout, its output, and what it says of faults."""
    command = [sys.executable, "tools/view", *words]
    done = subprocess.run(command, cwd=ROOT, capture_output=True, check=False, text=True)
    return done.returncode, done.stdout, done.stderr


def open_page(driver: Any, text: str) -> None:
    """Opens a page of this text, from a file."""
    with tempfile.TemporaryDirectory() as folder:
        page = Path(folder, "page.html")
        page.write_text(text, encoding="utf-8")
        driver.get(page.as_uri())


def make(*words: str) -> str:
    """The text of the page that tools/view makes of files."""
    with tempfile.TemporaryDirectory() as folder:
        page = Path(folder, "page.html")
        assert view(*words, "-o", page) == (0, f"{page}\n", "")
        return page.read_text(encoding="utf-8")


def show(driver: Any, it: Map) -> None:
    """Shows a map."""
    driver.execute_script("viewer.show(arguments[0]); viewer.drawNow();", scene_of(it))


def click(driver: Any, dart: int) -> None:
    """Clicks where a dart's stroke has its middle."""
    canvas = driver.find_element("css selector", "#room canvas")
    x, y = driver.execute_script("const {viewer} = gmr.page; viewer.drawNow();"
                                 " const {x, y} = viewer.pixelOf(arguments[0]); return [x, y];", dart)
    ActionChains(driver).move_to_element_with_offset(
        canvas, round(x - canvas.size["width"] / 2), round(y - canvas.size["height"] / 2)).click().perform()


def until(driver: Any, holds: Callable[[], bool], what: str) -> None:
    """Waits until something holds; TimeoutException, which says what doesn't, where it never does."""
    WebDriverWait(driver, PATIENCE).until(lambda _: holds(), what)


def press(driver: Any, keys: str) -> None:
    """Presses keys, one after another, where no field has the focus."""
    driver.execute_script("document.activeElement.blur()")
    ActionChains(driver).send_keys(keys).perform()


def brightness(driver: Any) -> float:
    """How bright the picture is beside the map, from 0 to 1."""
    return float(pixels(driver.get_screenshot_as_png())[CORNER].mean())


def card(driver: Any) -> str:
    """What the card of a dart says."""
    return str(driver.find_element("css selector", ".card").text)


def toast(driver: Any) -> str:
    """What the page said last of a click."""
    return str(driver.find_element("css selector", ".toast").get_attribute("textContent"))


def rows(it: Map) -> list[Any]:
    """The names of a map's darts, and for each label their neighbours."""
    return [it.darts.tolist(), [[step[dart] for dart in it.darts] for step in it.alpha]]


def test_numbers_are_packed_as_narrow_as_they_are() -> None:
    for numbers, name in (((0, 255, 3), "Uint8"), ((-1, 5, 9), "Int8"), ((256, 1, 1), "Uint16"), ((2**40, 0), "Int64")):
        assert pack(numbers)["type"] == name, numbers
    assert pack(range(5, 9)) == {"from": 5, "count": 4}


def test_changes_hold_the_rows_that_differ_alone() -> None:
    before = load("painted.gmap")
    changes = changes_between(before, before)
    assert changes["rows"]["names"] == pack(()) and changes["gone"] == pack(())
    assert "places" in json.dumps(changes)


def test_what_a_line_changes_is_shorter_than_the_map_that_it_leaves() -> None:
    it = torus(20, 20)
    moved = Map(2, 2, it.embeds, it.next, it.darts, list(it.alpha),
                {"pos": {dart: (x + 7, y, z) for dart, (x, y, z) in it.values["pos"].items()}})
    changes = changes_between(it, moved)
    assert changes["rows"]["names"] == pack(it.darts) and len(json.dumps(changes)) < len(moved.text())
    some = {**it.values["pos"], 0: (1, 2, 3)}
    changes = changes_between(it, Map(2, 2, it.embeds, it.next, it.darts, list(it.alpha), {"pos": some}))
    assert changes["rows"]["names"] == pack([0]) and changes["rows"]["values"]["pos"] == pack([1, 2, 3])


def test_pages_in_a_browser() -> None:
    with open_browser() as driver:      # one for all, since it takes the longest to begin
        for check in (check_darts_that_are_pointed_at, check_changes, check_script, check_several_maps, check_keys,
                      check_large_map):
            check(driver)
            assert not faults(driver), check.__name__


def check_darts_that_are_pointed_at(driver: Any) -> None:
    """The dart at the pixel of a dart is that dart."""
    open_page(driver, PAGE % (assets.library(), assets.viewer()))
    for name in ("painted.gmap", "edge.gmap"):
        it = load(name)
        show(driver, it)
        found = driver.execute_script(
            "return arguments[0].map((dart) => { const {x, y} = viewer.pixelOf(dart); return viewer.dartAt(x, y); });",
            it.darts.tolist())
        assert found == it.darts.tolist(), (name, found)


def check_changes(driver: Any) -> None:
    """Changes lead from a map to the next, and those that an update gives lead back."""
    before, after = (load(f"operations/dimension2/triangulate_face_2d/{name}.gmap") for name in ("before", "after"))
    ask = ("const {state} = viewer, all = Array.from(state.inOrder()), named = (slots) => slots.map((slot) => state.names[slot]);"
           "return [named(all), state.alpha.map((step) => named(all.map((slot) => step[slot])))];")
    show(driver, before)
    driver.execute_script("window.found = viewer.update(arguments[0]);", changes_between(before, after))
    assert driver.execute_script(ask) == rows(after)
    driver.execute_script("viewer.light(found.fresh, 'new'); viewer.drawNow(); viewer.update(found.undo);")
    assert driver.execute_script(ask) == rows(before)


def check_script(driver: Any) -> None:
    """A script is stepped through by keys, and a click copies a dart or a line."""
    open_page(driver, make(*SCRIPT))
    said = driver.find_element("id", "steps")
    until(driver, lambda: "line 0 of 6" in said.text, "what is said of a line")
    ActionChains(driver).send_keys("..").perform()
    until(driver, lambda: "2 triangulate done added 16 removed 0" in said.text, "what is said of a line")
    until(driver, lambda: "16 darts new" in said.text, "what is new")
    ActionChains(driver).send_keys(".").perform()
    until(driver, lambda: "The precondition of paint is false" in said.text, "what is said of a line")
    assert "24 darts" in driver.find_element("id", "counts").text
    click(driver, 13)
    until(driver, lambda: card(driver).startswith("dart 13 α0 21 α1 3 α2 15"), "the card of a dart")
    until(driver, lambda: toast(driver).endswith("13"), "what was copied")
    driver.find_element("css selector", "#copies option[value=triangulate]").click()
    click(driver, 3)
    until(driver, lambda: toast(driver).endswith("apply triangulate 3"), "what was copied")
    driver.execute_script("document.activeElement.blur()")
    ActionChains(driver).send_keys(",,,").perform()
    until(driver, lambda: "line 0 of 6" in said.text, "what is said of a line")
    until(driver, lambda: "8 darts" in driver.find_element("id", "counts").text, "the counts")
    assert colours(driver.get_screenshot_as_png()) > 10


def check_several_maps(driver: Any) -> None:
    """Maps are gone through by keys, and all darts of each are within the picture, laid out or not."""
    open_page(driver, make(*(f"examples/operations/{name}/before.gmap" for name in MAPS)))
    assert driver.title == "before.gmap, before.gmap, before.gmap and 1 more"
    for number, name in enumerate(MAPS, 1):
        it = load(f"operations/{name}/before.gmap")
        assert f"map {number} of {len(MAPS)}" in driver.find_element("id", "steps").text
        said = driver.find_element("id", "counts").text
        assert said.startswith(f"dimension {it.dimension}, {len(it.darts)} dart"), said
        until(driver, lambda: driver.execute_script(OUTSIDE) == [], f"darts of {name} lie outside")
        press(driver, ".")
    press(driver, Keys.HOME + Keys.END + ",")
    assert f"map {len(MAPS) - 1} of {len(MAPS)}" in driver.find_element("id", "steps").text
    press(driver, ".")


def check_keys(driver: Any) -> None:
    """Keys pull volumes apart, cut, choose darts, turn the page dark, and show themselves."""
    before = driver.execute_script(SETTINGS)
    bright = brightness(driver)
    press(driver, "aaactn")
    after = driver.execute_script(SETTINGS)
    assert before["apart"] == 0 and after["apart"] > 0.2 and after["cut"]["axis"] == "x", (before, after)
    assert {before["theme"], after["theme"]} == {"light", "dark"}, (before, after)
    WebDriverWait(driver, PATIENCE).until(lambda _: abs(brightness(driver) - bright) > 0.7)
    assert before["names"] != after["names"]
    it = load(f"operations/{MAPS[-1]}/before.gmap")
    dart = it.darts[0]
    press(driver, f"g{dart}{Keys.ENTER}")
    until(driver, lambda: card(driver).startswith(f"dart {dart} "), "the card of a dart")
    press(driver, "1")
    until(driver, lambda: card(driver).startswith(f"dart {it.alpha[1][dart]} "), "the card of a dart")
    press(driver, "?")
    keys = driver.find_element("id", "keys")
    assert keys.is_displayed() and "turn" in keys.text
    keys.find_element("css selector", "button").click()
    WebDriverWait(driver, PATIENCE).until(lambda _: not keys.is_displayed())


def check_large_map(driver: Any) -> None:
    """A page of 100,000 darts is shorter than the map's text and three.js, and opens within three seconds."""
    it = torus(112, 112)
    text = make_page("torus", {"names": ["torus"], "scenes": [scene_of(it)]})
    assert len(text) - len(assets.library()) - 100_000 < len(it.text()), len(text)
    before = cpu_seconds(driver)
    open_page(driver, text)
    driver.execute_async_script("requestAnimationFrame(() => requestAnimationFrame(arguments[0]))")
    taken = cpu_seconds(driver) - before
    assert taken < 3, f"{taken:.1f} seconds of the page's processor"
    assert driver.execute_script("return gmr.page.viewer.calls") < 10
    assert colours(driver.get_screenshot_as_png()) > 50


def test_what_is_wrong_is_told_in_a_line() -> None:
    with tempfile.TemporaryDirectory() as folder:
        page, broken = Path(folder, "page.html"), "examples/broken.gmap"
        copy = Path(folder, "square.gmap")
        copy.write_text((EXAMPLES / "square.gmap").read_text(encoding="ascii"), encoding="ascii")
        for words, said in (((broken, "-o", page), "points back"), (("nothing.gmap", "-o", page), "nothing.gmap"),
                            ((copy, "-o", copy), "can't be written"),
                            ((broken, *SCRIPT[1:], "-o", page), "refused MAP involution dart 0 label 0")):
            status, printed, fault = view(*words)
            assert (status, printed) == (1, "") and said in fault and fault.count("\n") == 1, (words, fault)
        assert not page.exists()
