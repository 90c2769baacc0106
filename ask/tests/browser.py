"""A browser without a window for tests: Chromium, driven by Selenium."""
import base64
import os
import pathlib
import shutil
from typing import Any, Dict, Iterator, List

import pytest

selenium = pytest.importorskip("selenium", reason="there is no selenium, which Debian has in its package python3-selenium")
from selenium import webdriver  # noqa: E402  after the line that skips the tests where it is missing
from selenium.webdriver.chrome.options import Options  # noqa: E402
from selenium.webdriver.chrome.service import Service  # noqa: E402
from selenium.webdriver.common.action_chains import ActionChains  # noqa: E402
from selenium.webdriver.common.keys import Keys  # noqa: E402
from selenium.webdriver.common.print_page_options import PrintOptions  # noqa: E402

PROGRAMS = {"chromium": "chromium", "chromedriver": "chromium-driver"}  # with the packages of Debian that have them
OPTIONS = ("--headless=new", "--disable-dev-shm-usage", "--disable-gpu", "--no-first-run", "--disable-background-networking",
           "--disable-component-update", "--hide-scrollbars", "--force-color-profile=srgb")
KEYS = {"Tab": Keys.TAB, "Enter": Keys.ENTER, "ArrowUp": Keys.ARROW_UP, "ArrowDown": Keys.ARROW_DOWN, "Home": Keys.HOME,
        "End": Keys.END}
PATIENCE = 120  # seconds within which a page is loaded, or a script ends


class Page:
    """The page of a browser."""

    def __init__(self, driver: webdriver.Chrome):
        self.driver = driver

    def command(self, method: str, **parameters: Any) -> Dict[str, Any]:
        """Gives a command of the browser's own, for what Selenium has no function."""
        answer: Dict[str, Any] = self.driver.execute_cdp_cmd(method, parameters)
        return answer

    def resize(self, width: int, height: int) -> None:
        """Sets the size in pixels. A window itself would be at least 500 pixels wide."""
        self.command("Emulation.setDeviceMetricsOverride", width=width, height=height, deviceScaleFactor=1, mobile=False)

    def open(self, path: pathlib.Path, fragment: str = "") -> None:
        """Opens a file anew, and waits until it is loaded."""
        self.driver.get("about:blank")
        self.driver.get(path.resolve().as_uri() + fragment)

    def evaluate(self, expression: str) -> Any:
        """The value of an expression of JavaScript; a promise is awaited. A fault that is raised there is raised here."""
        return self.driver.execute_script(f"return {expression}")

    def media(self, kind: str = "", **features: str) -> None:
        """Emulates a medium, as `print`, and features of media, as prefers_color_scheme="dark"."""
        named = [{"name": name.replace("_", "-"), "value": value} for name, value in features.items()]
        self.command("Emulation.setEmulatedMedia", media=kind, features=named)

    def scripts(self, enabled: bool) -> None:
        """Turns the scripts of pages that are opened from now on on or off."""
        self.command("Emulation.setScriptExecutionDisabled", value=not enabled)

    def press(self, key: str) -> None:
        """Presses and releases a key; a single character is typed."""
        ActionChains(self.driver).send_keys(KEYS.get(key, key)).perform()

    def picture(self, path: pathlib.Path, whole: bool = False) -> None:
        """Writes a picture of what is shown, or of the whole page, as PNG."""
        size = self.command("Page.getLayoutMetrics")["cssContentSize"]
        clip = {"clip": {"x": 0, "y": 0, "width": size["width"], "height": size["height"], "scale": 1}} if whole else {}
        path.write_bytes(base64.b64decode(self.command("Page.captureScreenshot", captureBeyondViewport=whole, **clip)["data"]))

    def printed(self) -> bytes:
        """The page printed, as PDF."""
        return base64.b64decode(self.driver.print_page(PrintOptions()))

    def faults(self) -> List[str]:
        """What the console was told as errors since it was last asked, by scripts or by the browser."""
        return [entry["message"] for entry in self.driver.get_log("browser") if entry["level"] == "SEVERE"]


def make_driver() -> webdriver.Chrome:
    """Starts a browser."""
    options = Options()
    options.binary_location = shutil.which("chromium") or ""
    for option in [*OPTIONS, *(["--no-sandbox"] if os.geteuid() == 0 else [])]:
        options.add_argument(option)
    options.set_capability("goog:loggingPrefs", {"browser": "ALL"})
    driver = webdriver.Chrome(service=Service(shutil.which("chromedriver") or ""), options=options)
    driver.set_page_load_timeout(PATIENCE)
    driver.set_script_timeout(PATIENCE)
    return driver


@pytest.fixture(scope="session")
def driver() -> Iterator[webdriver.Chrome]:
    """A running browser; the tests that need it are skipped where a program is missing."""
    for name, package in PROGRAMS.items():
        if shutil.which(name) is None:
            pytest.skip(f"there is no program {name}, which Debian has in its package {package}")
    running = make_driver()
    yield running
    running.quit()


@pytest.fixture
def page(driver: webdriver.Chrome) -> Iterator[Page]:
    """A page of 1,200 pixels in a tab of its own."""
    first = driver.current_window_handle
    driver.switch_to.new_window("tab")
    made = Page(driver)
    made.resize(1200, 900)
    made.faults()
    yield made
    driver.close()
    driver.switch_to.window(first)
