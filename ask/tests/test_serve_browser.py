"""Tests the question `serve` in a browser: worlds are typed and played, at the width of a phone and of a screen."""
import pathlib
import threading
from typing import Iterator

import pytest
from browser import Page, driver, page  # noqa: F401  fixtures
from page_inputs import EXAMPLES, labsys, reply_lines, trail_of
from selenium.webdriver.common.action_chains import ActionChains
from selenium.webdriver.common.by import By
from selenium.webdriver.common.keys import Keys
from selenium.webdriver.support.ui import WebDriverWait

from labask.page_server import Limits, PageServer
from labask.playing import find_program
from labask.serve import FIRST_WORLD, editor_of

pytestmark = pytest.mark.usefixtures("program")

PATIENCE = 120  # seconds
WIDTHS = (400, 1280)
TOO_WIDE = "document.documentElement.scrollWidth > document.documentElement.clientWidth"


@pytest.fixture(scope="module")
def address() -> Iterator[str]:
    """The address of a running server."""
    with PageServer(editor_of(FIRST_WORLD), find_program(), 0, Limits(seconds=PATIENCE)) as server:
        threading.Thread(target=server.serve_forever, daemon=True).start()
        yield server.address
        server.shutdown()


def play(page: Page, text: str) -> str:
    """Puts a text into the editor and plays it by keys. Returns what the page says then."""
    page.driver.execute_script("document.getElementById('world').value = arguments[0]; document.getElementById('said').value = ''", text)
    page.driver.find_element(By.ID, "world").click()
    ActionChains(page.driver).key_down(Keys.CONTROL).send_keys(Keys.ENTER).key_up(Keys.CONTROL).perform()
    WebDriverWait(page.driver, PATIENCE).until(lambda _: page.evaluate("!document.getElementById('play').disabled && "
                                                                       "document.getElementById('said').value !== ''"))
    said: str = page.evaluate("document.getElementById('said').value")
    return said


def open_run(page: Page) -> None:
    """Goes into the frame of the run, and waits until it is there."""
    page.driver.switch_to.frame("run")
    WebDriverWait(page.driver, PATIENCE).until(lambda _: page.evaluate("document.querySelectorAll('.calls tr[id]').length > 0 && "
                                                                       "!document.querySelector('.controls').hidden"))


@pytest.mark.parametrize("width", WIDTHS)
def test_a_world_is_played(page: Page, address: str, width: int, tmp_path: pathlib.Path) -> None:
    text = (EXAMPLES / "backup_for_all.txt").read_bytes()
    page.resize(width, 900)
    page.driver.get(address)
    assert page.evaluate("document.getElementById('world').value") == FIRST_WORLD.decode("ascii")
    assert play(page, text.decode("ascii")) == "Played." and not page.evaluate(TOO_WIDE)
    assert page.evaluate("document.getElementById('alone').href").endswith(page.evaluate("document.getElementById('run').src"))
    open_run(page)
    rows = page.evaluate("[...document.querySelectorAll('.calls tr[id]')].map(row => row.querySelector('.w').textContent + ' ' + "
                         "row.querySelector('.c').textContent.split(' ')[0] + ' ' + row.querySelector('.r').textContent)")
    assert rows == reply_lines(labsys("play", "/dev/null", given=text)[1])
    records = [line for line in trail_of(text, tmp_path) if line[0] in "123456789"]
    assert page.evaluate("[...document.querySelectorAll('.s li[title]')].map(item => item.title)") == records
    page.driver.execute_script("const chosen = document.getElementById('label'); chosen.value = 'internal:eng'; "
                               "chosen.dispatchEvent(new Event('change'))")
    seen = reply_lines(labsys("view", "internal:eng", given=text)[1])
    assert page.evaluate("document.querySelectorAll('.calls tr[id]:not(.unseen)').length") == len(seen)
    assert page.evaluate("document.querySelectorAll('.names span').length") >= 1 and not page.evaluate(TOO_WIDE)
    assert page.faults() == []


@pytest.mark.parametrize("width", WIDTHS)
def test_a_world_that_is_refused(page: Page, address: str, width: int) -> None:
    page.resize(width, 900)
    page.driver.get(address)
    broken = "".join(line.replace("file", "<b>directory</b>" + "x" * 200, 1) for line in FIRST_WORLD.decode("ascii").splitlines(keepends=True))
    assert play(page, broken) == "There is no run." and not page.evaluate(TOO_WIDE)
    assert "<b>directory</b>" in page.evaluate("document.getElementById('refusal').textContent")
    assert page.evaluate("document.getElementById('run').hidden && document.getElementById('alone').hidden")
    assert play(page, FIRST_WORLD.decode("ascii")) == "Played."
    assert page.evaluate("document.getElementById('refusal').hidden && !document.getElementById('run').hidden")
