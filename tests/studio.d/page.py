"""The studio's page, as a user meets it: clicks, keys, refusals, saves."""
import http.client
import json

from page_of_studio import Page, open_page
from selenium.webdriver.common.keys import Keys
from site_of_studio import run_gmr


def test_a_cube_is_modelled_by_clicks_and_saved_as_a_run_saves_it() -> None:
    with open_page() as page:
        page.js("document.documentElement.dataset.theme === 'dark' && document.getElementById('do-theme').click()")
        assert page.darts() == 48
        extrude_by_two_clicks(page)
        undo_and_redo(page)
        each(page)
        rule_by_example(page)
        be_refused(page)
        save_and_compare(page)


def extrude_by_two_clicks(page: Page) -> None:
    """A rule and a face: the face is extruded where it was clicked."""
    page.choose("extrude_face_by_2d")
    assert page.js("return gmr.choice.values()") == [[0, 0, 50], [60, 130, 200]], "values that suit the model stand there"
    before, x_y = page.shot(), page.pixel(8)
    page.point(8)
    page.wait("what would be done", lambda: "would be done: added 32 removed 0" in page.text("tip"))
    hovered = page.shot()
    assert page.colour(before, x_y) != page.colour(hovered, x_y), "the face under the pointer isn't lit"
    page.keep("extrude")
    page.change("the extrusion", lambda: page.click_at(x_y))
    assert page.darts() == 80
    [(text, came)] = page.steps()
    assert text.startswith("apply extrude_face_by_2d 8 with (0 0 ") and came == "done", text
    assert "added 32 removed 0" in page.message()
    page.leave()
    red, green, blue = page.colour(page.shot(), page.pixel(72))
    assert green > red + 20 and green > blue, f"what is new isn't lit: {red} {green} {blue}"
    page.still()
    assert page.colour(page.shot(), page.pixel(72)) != [red, green, blue]


def undo_and_redo(page: Page) -> None:
    """The usual keys."""
    page.change("undo", lambda: page.press(Keys.CONTROL, "z"))
    assert page.darts() == 48 and page.steps()[0][1] == "undone"
    page.change("redo", lambda: page.press(Keys.CONTROL, Keys.SHIFT, "z"))
    assert page.darts() == 80 and [came for _, came in page.steps()] == ["done", "undo", "redo"]


def each(page: Page) -> None:
    """A rule at each face, and taken back."""
    page.choose("triangulate_at_middle")
    page.change("each", lambda: page.click("each"))
    assert page.steps()[-1][0] == "each <0 1> triangulate_at_middle" and page.darts() == 240
    page.leave()
    page.still()
    page.keep("each")
    page.change("undo", lambda: page.click("do-undo"))
    assert page.darts() == 80


def rule_by_example(page: Page) -> None:
    """Two maps by two clicks become a rule, which is added to the book and applied at another face."""
    page.still()
    page.click("tab-example")
    page.click("take-before")
    page.wait("the map before", lambda: page.state()["example"].get("before") == 80)
    page.choose("extrude_face_by_2d")
    page.give([0, -60, 0], [80, 160, 90])
    page.change("a first step", lambda: page.point(48, click=True) and None)
    page.choose("triangulate_at_middle")
    page.change("a second step", lambda: page.point(48, click=True) and None)
    page.leave()
    page.wait("the darts before and after", lambda: page.js("return !document.getElementById('take-after').disabled"))
    page.click("take-after")
    page.wait("the map after", lambda: page.state()["example"].get("after") == 128)
    page.type("made-name", "tower")
    page.click("make-rule")
    page.wait("the rule", lambda: page.js("return Boolean(document.getElementById('add-rule'))"))
    assert "rule tower" in page.text("made")
    page.leave()
    page.still()
    page.keep("example")
    page.click("add-rule")
    page.wait("the rule in the book", lambda: page.js("return Boolean(document.getElementById('rule-tower'))"))
    page.wait("where it fits", lambda: page.js("return Boolean(gmr.choice.fits)"))
    dart = page.seen(range(16, 24))
    page.change("the rule at another face", lambda: page.point(dart, click=True) and None)
    assert page.steps()[-1] == (f"apply tower {dart}", "done")


def be_refused(page: Page) -> None:
    """A rule that can't match: the page says why before the click and after it, and nothing changes."""
    darts = page.darts()
    page.choose("extrude_edge_by")
    assert page.text("fits") == "fits nowhere"
    page.click("tab-script")
    page.leave()
    page.still()
    dart = page.seen([29, 28, 27, *range(24, 32)])
    page.point(dart)
    page.wait("why it doesn't fit", lambda: "no-match arc a 0 2" in page.text("tip"))
    assert "is joined along 2 already, where the rule needs it free" in page.text("tip")
    page.keep("refusal")
    page.point(dart, click=True)
    page.wait("the refusal", lambda: "extrude_edge_by refused no-match arc a 0 2" in page.message())
    assert f"So dart {dart} is joined along 2 already, where the rule needs it free." in page.message()
    assert page.darts() == darts and page.steps()[-1][1] == "note"
    page.press(Keys.ESCAPE)


def save_and_compare(page: Page) -> None:
    """What is saved is to the byte what a run of the saved script leaves."""
    names = {"start": "start.gmap", "book": "rules.gbook", "script": "done.gscript", "map": "out.gmap"}
    for kind, name in names.items():
        page.save(kind, name)
    files = [page.site.folder / names[kind] for kind in ("start", "book", "script")]
    report = run_gmr("run", *files, page.site.folder / "again.gmap")
    assert (page.site.folder / "again.gmap").read_bytes() == (page.site.folder / "out.gmap").read_bytes(), report
    assert report.splitlines()[-1] in page.message()


def test_all_can_be_done_by_keys() -> None:
    with open_page() as page:
        page.press("/")
        page.press("triangulate_at")
        page.press(Keys.ENTER)
        page.wait("the rule", lambda: page.js("return gmr.choice.rule && gmr.choice.rule.name") == "triangulate_at_middle")
        page.wait("where it fits", lambda: page.js("return Boolean(gmr.choice.fits)"))
        for key in (".", "0", "1"):
            page.press(key)
        assert page.js("return gmr.stage.cursor") == 2
        page.change("the application", lambda: page.press(Keys.ENTER))
        assert page.steps() == [("apply triangulate_at_middle 2", "done")]
        page.change("each", lambda: page.press("e"))
        page.change("undo", lambda: page.press(Keys.CONTROL, "z"))
        page.press("g")
        page.wait("a group", lambda: page.state()["group"] == [])
        page.change("within the group", lambda: page.press(Keys.ENTER))
        page.change("the group's end", lambda: page.press("g"))
        assert page.steps()[-1] == ("group\napply triangulate_at_middle 2\nend", "done")
        page.press(Keys.ESCAPE)
        page.press(Keys.SHIFT, Keys.ENTER)
        assert page.js("return gmr.stage.leads()") == [2]
        page.press("?")
        page.wait("the keys", lambda: "begin a group" in page.text("dialog"))
        page.press(Keys.ESCAPE)
        page.press("t")
        assert page.js("return document.documentElement.dataset.theme") in ("light", "dark")


def test_several_hooks_are_clicked_one_after_another() -> None:
    with open_page() as page:
        page.choose("unsew_faces_at_points")
        page.change("an edge unsewn", lambda: page.point(8, click=True) and None)
        page.choose("sew_faces_midway")
        assert page.js("return gmr.choice.fits.count") == 4, "the darts of the two borders fit"
        assert page.js("return gmr.stage.viewer.marks.get('fits').darts.length") == 4, "and they are lit"
        page.point(8, click=True)
        page.wait("the first hook", lambda: page.js("return gmr.choice.hooks.length === 1 && Boolean(gmr.choice.fits)"))
        assert page.js("return gmr.choice.fits.ranges.flat()") == [20, 21]
        page.change("the edges sewn", lambda: page.point(21, click=True) and None)
        assert page.steps()[-1][0] == "apply sew_faces_midway 8 21"


def test_points_are_taken_from_the_model() -> None:
    with open_page() as page:
        page.choose("set_point_2d")
        page.js("document.querySelector('#rule-card .value button').click()")
        page.point(20, click=True)
        assert page.js("return gmr.choice.values()") == [page.js("return gmr.stage.pointOf(20)")]


def test_what_is_selected_gets_a_rule_whole_or_not_at_all() -> None:
    with open_page() as page:
        page.press(Keys.ESCAPE)
        page.point(8, click=True)
        page.js("gmr.stage.select(20, true)")
        page.choose("triangulate_at_middle")
        page.change("both faces", lambda: page.click("each-selected"))
        assert page.darts() == 80 and page.steps()[-1][0].split("\n")[1:3] == [f"apply triangulate_at_middle {dart}" for dart in (8, 20)]
        page.change("undo", lambda: page.press(Keys.CONTROL, "z"))
        assert page.darts() == 48


def test_nothing_comes_from_a_network() -> None:
    with open_page() as page:
        names = page.js("return performance.getEntriesByType('resource').map((entry) => entry.name)")
        assert names and all(name.startswith(page.site.address) for name in names), names


def test_a_page_that_is_behind_is_told_so() -> None:
    with open_page() as page:
        other = http.client.HTTPConnection(page.site.host)
        fields = {"version": page.state()["version"], "rule": "triangulate_at_middle", "labels": [0, 1], "values": []}
        other.request("POST", f"{page.site.path}api/each", json.dumps(fields), {"Content-Type": "application/json"})
        assert other.getresponse().status == 200
        page.press(Keys.CONTROL, "z")
        page.wait("what the page says", lambda: "changed elsewhere" in page.message())
        page.open()
        assert page.darts() == 144
        page.js("console.clear()")
        page.driver.get_log("browser")
