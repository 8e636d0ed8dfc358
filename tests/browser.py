"""A browser for tests: Debian's chromium without a screen, driven by selenium, with WebGL drawn by the processor."""
import io
import subprocess
import tempfile
import time
from collections.abc import Iterator
from contextlib import contextmanager
from pathlib import Path
from typing import Any

from selenium import webdriver
from selenium.webdriver.chrome.options import Options
from selenium.webdriver.chrome.service import Service

FLAGS = ("--headless=new", "--no-sandbox", "--use-gl=angle", "--use-angle=swiftshader", "--enable-unsafe-swiftshader",
         "--disable-background-networking", "--disable-component-update", "--no-first-run", "--hide-scrollbars",
         "--disable-renderer-backgrounding", "--disable-backgrounding-occluded-windows", "--disable-extensions")
PATIENCE = 300      # seconds: a machine that is busy with proofs is slow, and only what hangs is to be ended
NO_NETWORK = "--host-resolver-rules=MAP * ~NOTFOUND, EXCLUDE 127.0.0.1"
CHROMIUM, DRIVER = "/usr/bin/chromium", "/usr/bin/chromedriver"


@contextmanager
def open_browser(width: int = 1280, height: int = 720, *flags: str) -> Iterator[Any]:
    """A browser whose pages are so wide and so high; it knows no host but this machine."""
    with tempfile.TemporaryDirectory(prefix="gmr-browser-", ignore_cleanup_errors=True) as profile:
        command = [CHROMIUM, *FLAGS, NO_NETWORK, f"--user-data-dir={profile}", "--remote-debugging-port=0", *flags]
        silent = {"stdout": subprocess.DEVNULL, "stderr": subprocess.DEVNULL}
        with subprocess.Popen([*command, "about:blank"], **silent) as browser:
            try:
                yield from drive(wait_for_port(Path(profile, "DevToolsActivePort")), width, height)
            finally:
                browser.terminate()


def wait_for_port(file: Path) -> str:
    """The port at which a browser that begins can be driven. The driver itself would wait for a minute alone."""
    end = time.monotonic() + PATIENCE
    while not (file.exists() and file.read_text(encoding="ascii").strip()):
        if time.monotonic() > end:
            raise TimeoutError("the browser doesn't begin")
        time.sleep(0.1)
    return file.read_text(encoding="ascii").split()[0]


def drive(port: str, width: int, height: int) -> Iterator[Any]:
    """The driver of a browser that runs."""
    options = Options()
    options.debugger_address = f"127.0.0.1:{port}"
    options.set_capability("goog:loggingPrefs", {"browser": "ALL"})
    driver = webdriver.Chrome(service=Service(DRIVER), options=options)
    try:
        driver.set_script_timeout(PATIENCE)
        driver.set_page_load_timeout(PATIENCE)
        driver.execute_cdp_cmd("Performance.enable", {"timeDomain": "threadTicks"})
        driver.execute_cdp_cmd("Emulation.setDeviceMetricsOverride", {
            "width": width, "height": height, "deviceScaleFactor": 1, "mobile": False})
        yield driver
    finally:
        driver.quit()


def faults(driver: Any) -> list[str]:
    """What the page said of errors since it was asked last."""
    return [entry["message"] for entry in driver.get_log("browser") if entry["level"] == "SEVERE"]


def cpu_seconds(driver: Any) -> float:
    """The seconds of a processor that the page's own thread took since it began to load."""
    told = driver.execute_cdp_cmd("Performance.getMetrics", {})["metrics"]
    return float(next(it["value"] for it in told if it["name"] == "TaskDuration"))


def pixels(picture: bytes) -> Any:
    """A picture in PNG as an array of rows of pixels, each red, green and blue from 0 to 1."""
    from matplotlib.image import imread  # the only reader of pictures among the packages that the tools need

    return imread(io.BytesIO(picture))[:, :, :3]


def colours(picture: bytes) -> int:
    """How many colours a picture in PNG has: 1 where it is blank."""
    import numpy

    return len(numpy.unique((pixels(picture) * 255).astype("uint8").reshape(-1, 3), axis=0))
