"""The studio's book and script, as they are written in the page, and what comes back after a crash."""
import signal

from page_of_studio import Page, open_page
from site_of_studio import Site


def write(page: Page, field: str, text: str) -> None:
    """Writes a text into a large field at once, as one who pastes it."""
    page.js("const it = document.getElementById(arguments[0]); it.value = arguments[1]; it.dispatchEvent(new Event('input'))", field, text)


def test_a_fault_of_the_book_is_marked_at_its_place() -> None:
    with open_page() as page:
        page.click("tab-book")
        text = page.js("return document.getElementById('book-text').value")
        rule = "\nrule spike\nleft\na <0 1> hook\nright\na <0 _>\nb <_ 2>\nc <1 2> with pos = sum<0 1>(a.pos) / count<0 1>(a) + vec3(0, 0, 80)\na -1- b\n"
        write(page, "book-text", text + rule)
        page.wait("the fault", lambda: "rule spike refused arc-missing b 0" in page.text("faults"))
        assert "Give it 0 by a letter in its word or by a link" in page.text("faults")
        assert page.js("return document.querySelector('.editor mark').textContent") == "rule spike"
        page.js("document.querySelector('#faults li').click()")
        page.keep("book")
        write(page, "book-text", text + rule.replace("with pos = sum", "with pas = sum"))
        page.wait("the other fault", lambda: "refused BOOK unknown" in page.text("faults"))
        assert page.js("return document.querySelector('.editor mark').textContent") == "pas"
        assert not page.driver.find_element("id", "book-take").is_enabled(), "a text that is no book can't be taken"
        write(page, "book-text", text + rule + "b -0- c\n")
        page.wait("no fault", lambda: "refused 0" in page.text("faults"))
        page.click("book-take")
        page.wait("the rule", lambda: page.js("return Boolean(document.getElementById('rule-spike'))"))
        page.choose("spike")
        page.change("the rule at a face", lambda: page.point(8, click=True) and None)
        assert page.darts() == 64


def test_a_script_is_edited_and_run_again_from_any_line() -> None:
    with open_page() as page:
        page.click("script-edit")
        lines = ["apply extrude_face_by_2d 8 with (0 0 100) (220 120 40)", "each <0 1> triangulate_at_middle", "undo"]
        write(page, "script-text", "\n".join(lines))
        page.change("the script", lambda: page.click("script-run"))
        assert page.darts() == 80 and [came for _, came in page.steps()] == ["done", "undone", "undo"]
        page.change("up to the second line", lambda: page.js("document.querySelectorAll('#steps .run')[1].click()"))
        assert page.darts() == 240 and page.state()["rest"].strip() == "undo"
        page.change("the rest", lambda: page.js("document.querySelector('#steps .rest .run').click()"))
        assert page.darts() == 80 and page.state()["rest"] == ""
        page.click("script-edit")
        write(page, "script-text", "apply no_rule 8")
        page.click("script-run")
        page.wait("the refusal", lambda: "refused SCRIPT unknown-rule 6" in page.message())
        assert page.darts() == 80


def test_after_a_crash_the_page_offers_what_was_done() -> None:
    with open_page() as page:
        page.choose("extrude_face_by_2d")
        page.change("the extrusion", lambda: page.point(8, click=True) and None)
        page.click("tab-book")
        text = page.js("return document.getElementById('book-text').value") + "\nrule spike\n"
        write(page, "book-text", text)
        page.wait("a fault", lambda: "refused BOOK" in page.text("faults"))
        page.open()
        assert page.js("return document.getElementById('book-text').value") == text, "what is being written is lost"
        page.wait("the fault again", lambda: "refused BOOK" in page.text("faults"))
        page.site.end(signal.SIGKILL)
        page.js("document.getElementById('do-undo').click()")
        page.wait("that the studio is gone", lambda: "doesn't answer" in page.message())
        page.driver.get_log("browser")
        page.site = Site(page.site.folder)
        try:
            page.open()
            assert page.darts() == 48
            page.wait("the offer", lambda: "An earlier session over cube.gmap, with 1 statement" in page.text("banner"))
            page.change("what was done", lambda: page.click("offer-take"))
            assert page.darts() == 80
            assert page.js("return document.getElementById('book-text').value") == text, "what is being written is lost"
            page.wait("what is wrong with it", lambda: page.js("return Boolean(document.querySelector('.editor mark'))"))
        finally:
            page.site.end()


def test_maps_of_other_dimensions_are_shown() -> None:
    for book, amap in (("values3.gbook", "values3/extrude_face_by_3d/before.gmap"), ("dimension1.gbook", "dimension1/split_edge_1d/before.gmap")):
        with open_page("before.gmap", book, examples=(f"operations/{amap}", f"operations/{book}")) as page:
            assert page.darts() > 0
            page.shot(3)
