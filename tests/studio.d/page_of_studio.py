"""The studio's page in a browser, for tests: what stands on it, and what a user does there."""
import os
import time
from collections.abc import Callable, Iterable, Iterator
from contextlib import ExitStack, contextmanager
from pathlib import Path
from typing import Any

import browser
from selenium.common.exceptions import StaleElementReferenceException
from selenium.webdriver.common.action_chains import ActionChains
from selenium.webdriver.common.by import By
from selenium.webdriver.common.keys import Keys
from site_of_studio import Site, open_site

PATIENCE = 90.0
AWAKE = ("--disable-renderer-backgrounding", "--disable-backgrounding-occluded-windows")     # on a busy machine too


class Page:
    """The page of a studio."""

    def __init__(self, driver: Any, site: Site) -> None:
        self.driver, self.site = driver, site
        self.open()

    def open(self) -> None:
        """Loads the page, and waits until it is there."""
        self.driver.get(self.site.address)
        self.wait("the page", lambda: self.js("return document.body.dataset.ready") == "yes")
        self.js("gmr.stage.glow = 1e9")     # what is new stays lit until a test takes the light off

    def js(self, script: str, *words: Any) -> Any:
        """What a script gives within the page."""
        return self.driver.execute_script(script, *words)

    def wait(self, what: str, holds: Callable[[], Any]) -> Any:
        """Waits until something holds."""
        until = time.monotonic() + PATIENCE
        while time.monotonic() < until:
            found = holds()
            if found:
                return found
            time.sleep(0.03)
        raise AssertionError(f"waited in vain for {what}; the page says: {self.message()}")

    def click(self, name: str) -> None:
        """Clicks the element with an id."""
        self.wait(f"{name} to be clicked", lambda: self._try_click(name))

    def _try_click(self, name: str) -> bool:
        """Clicks an element; not where it was just made anew."""
        try:
            self.js("document.getElementById(arguments[0]).scrollIntoView({block: 'nearest'})", name)
            self.driver.find_element(By.ID, name).click()
        except StaleElementReferenceException:
            return False
        return True

    def text(self, name: str) -> str:
        """The text of the element with an id."""
        return str(self.js("const it = document.getElementById(arguments[0]); return it ? it.innerText : ''", name))

    def type(self, name: str, text: str) -> None:
        """Writes a text into the field with an id, in the place of what it holds."""
        self.js("const it = document.getElementById(arguments[0]); it.focus(); it.select()", name)
        ActionChains(self.driver).send_keys(text).perform()

    def press(self, *keys: str) -> None:
        """Presses keys together."""
        chain = ActionChains(self.driver)
        for key in keys[:-1]:
            chain.key_down(key)
        chain.send_keys(keys[-1])
        for key in keys[:-1]:
            chain.key_up(key)
        chain.perform()

    def message(self) -> str:
        """What the page says last."""
        return self.text("message")

    def state(self) -> Any:
        """The state as the page has it."""
        return self.js("return gmr.studio.state")

    def darts(self) -> int:
        """How many darts are shown."""
        return int(self.js("return gmr.stage.viewer.state.count"))

    def steps(self) -> list[tuple[str, str]]:
        """The steps of the script, with what came of each."""
        return [(step["text"], step["came"]) for step in self.state()["steps"]]

    def change(self, what: str, act: Callable[[], None]) -> None:
        """Does something, and waits until the map that the server has is shown."""
        version = self.state()["version"]
        act()
        self.wait(what, lambda: self.state()["version"] > version and self.state()["darts"] == self.darts())

    def pixel(self, dart: int) -> tuple[int, int]:
        """The pixel of the window where a dart is seen."""
        x, y, seen = self.js(
            "const p = gmr.stage.viewer.pixelOf(arguments[0]); const box = document.querySelector('#view canvas')"
            ".getBoundingClientRect(); return [p.x + box.left, p.y + box.top, p.seen]", dart)
        assert seen, f"dart {dart} isn't seen"
        return round(x), round(y)

    def point(self, dart: int, click: bool = False) -> tuple[int, int]:
        """Moves the pointer to a dart, and clicks it."""
        x, y = self.pixel(dart)
        chain = ActionChains(self.driver)
        chain.w3c_actions.pointer_action.move_to_location(x, y)
        if click:
            chain.w3c_actions.pointer_action.click()
        chain.perform()
        return x, y

    def click_at(self, place: tuple[int, int]) -> None:
        """Clicks a pixel of the window."""
        chain = ActionChains(self.driver)
        chain.w3c_actions.pointer_action.move_to_location(*place)
        chain.w3c_actions.pointer_action.click()
        chain.perform()

    def choose(self, rule: str) -> None:
        """Chooses a rule, and waits until it is known where it fits."""
        self.click(f"rule-{rule}")
        self.wait("where the rule fits", lambda: self.js("return !gmr.choice.next() || Boolean(gmr.choice.fits)"))

    def leave(self) -> None:
        """Moves the pointer off the model."""
        chain = ActionChains(self.driver)
        chain.w3c_actions.pointer_action.move_to_location(640, 20)
        chain.perform()
        self.js("gmr.choice.quiet()")

    def still(self) -> None:
        """Takes the light off what is new."""
        self.js("gmr.stage.light([], 'new')")

    def seen(self, darts: Iterable[int]) -> int:
        """One of the darts that is seen where it lies."""
        return next(dart for dart in darts if self.js("return gmr.stage.viewer.pixelOf(arguments[0]).seen", dart))

    def give(self, *values: Any) -> None:
        """Writes values into the fields of the chosen rule's parameters."""
        self.js("arguments[0].forEach((value, at) => gmr.choice.fields[at].write([].concat(value)))", list(values))

    def shot(self, least: int = 8) -> bytes:
        """A picture of the window, once the next picture is drawn; it isn't blank, but has some colours."""
        self.driver.execute_async_script("const end = arguments[0]; requestAnimationFrame(() => requestAnimationFrame(end))")
        picture: bytes = self.driver.get_screenshot_as_png()
        view = browser.pixels(picture)[100:600, 310:930]
        count = len({tuple((row * 255).astype(int)) for row in view[::7, ::7].reshape(-1, 3)})
        assert count >= least, f"the picture has {count} colours"
        return picture

    def keep(self, name: str) -> None:
        """Takes a picture for the documents, where they are asked for."""
        picture, folder = self.shot(), os.environ.get("GMR_PICTURES")
        if folder:
            write_small(picture, Path(folder) / f"studio_{name}.png")

    def colour(self, picture: bytes, place: tuple[int, int]) -> list[int]:
        """The mean colour of a few pixels of a picture."""
        x, y = place
        found = browser.pixels(picture)[y - 2:y + 3, x - 2:x + 3].reshape(-1, 3).mean(axis=0)
        return [round(float(part) * 255) for part in found]

    def save(self, kind: str, name: str) -> None:
        """Saves something under a name."""
        self.press(Keys.CONTROL, "s")
        self.wait("the dialog", lambda: self.js("return document.getElementById('dialog').open && Boolean(document.getElementById('file-go'))"))
        self.click(f"file-{kind}")
        self.wait("the dialog's kind", lambda: self.js("return document.querySelector('#file-' + arguments[0]).getAttribute('aria-checked') === 'true'", kind))
        self.type("file-name", name)
        self.click("file-go")
        self.wait("the save", lambda: "saved as" in self.message() and name in self.message())


def write_small(picture: bytes, path: Path) -> None:
    """Writes a picture with a palette of 128 colours, which keeps it small."""
    import io

    from PIL import Image
    Image.open(io.BytesIO(picture)).convert("RGB").quantize(128, dither=Image.Dither.NONE).save(path, optimize=True)


OPENED = ExitStack()
DRIVERS: list[Any] = []


def the_browser() -> Any:
    """The browser of this process, which all tests of a file share; `close_browser` ends it."""
    if not DRIVERS:
        DRIVERS.append(OPENED.enter_context(browser.open_browser(1280, 720, *AWAKE)))
    return DRIVERS[0]


def close_browser() -> None:
    """Ends the browser of this process."""
    OPENED.close()
    DRIVERS.clear()


@contextmanager
def open_page(*words: str, examples: tuple[str, ...] = ()) -> Iterator[Page]:
    """The page of a studio over a cube, or over what the words name, with examples of the library beside it. No error
    of the page is left unsaid."""
    with open_site(*words, examples=examples) as site:
        page = Page(the_browser(), site)
        yield page
        faults = browser.faults(page.driver)
        page.driver.get("about:blank")      # what the page still asks for is no fault once the studio ends
        assert not faults, faults
