"""Tests the page with the program as WebAssembly in a browser, which `web/build.py` makes: that the examples and cases give the same
bytes as the program, and what it shows of a run. Without `out/labsys.html`, or a page that LABSYS_PAGE names, they are skipped."""
import base64
import os
import pathlib
from typing import Any, Dict, Iterator, List, Tuple

import pytest
from browser import Page, driver, page  # noqa: F401  fixtures
from page_inputs import EXAMPLES, labsys, reply_lines
from run_cases import BadCase, find, read_case
from selenium.webdriver.support.ui import WebDriverWait
from support import TOP

pytestmark = pytest.mark.usefixtures("program")

WEB_PAGE = pathlib.Path(os.environ.get("LABSYS_PAGE", TOP / "out" / "labsys.html"))
PATIENCE = 120  # seconds
TOGETHER = 50
LARGEST = 300_000  # bytes of an input, which goes to the browser as text
TOO_WIDE = "document.documentElement.scrollWidth > document.documentElement.clientWidth"
PLAY_ALL = """
const [given, done] = arguments;
(async () => {
  const written = [];
  for (const [words, input] of given) {
    const run = await window.runProgram(words, input);
    written.push([run.status, btoa(run.output), btoa(run.trail)]);
  }
  return written;
})().then(done, (fault) => done(String(fault)));
"""
Played = Tuple[List[str], Dict[str, Any]]


@pytest.fixture
def web_page(page: Page) -> Page:  # noqa: F811
    """The page, opened."""
    if not WEB_PAGE.exists():
        pytest.skip(f"there is no {WEB_PAGE}, which web/build.py makes of the bitcode of the program")
    page.open(WEB_PAGE)
    return page


def cases() -> Iterator[Played]:
    """The words of cases, and what is expected of them. One whose words are no text, or whose input is very large, is left out."""
    for path in find([str(TOP / "tests" / "cases")]):
        try:
            case = read_case(path)
        except BadCase:
            continue
        words = [str(word) for word in case["words"]]
        if "--version" not in words and "drill" not in words and all(map(str.isprintable, words)) and len(case["input"]) < LARGEST:
            yield words, case


def worlds() -> Iterator[Played]:
    """The examples, and what is expected of them."""
    for folder, command in ((EXAMPLES, "play"), (EXAMPLES / "programs", "sched")):
        for path in sorted(folder.glob("*.txt")):
            out, trail = (path.with_suffix(ending).read_bytes() for ending in (".out", ".trail"))
            yield [command, "trail"], {"input": path.read_bytes(), "status": 0, "out": out, "trail": trail}


@pytest.mark.parametrize("given, least", [(cases, 450), (worlds, 20)], ids=["cases", "examples"])
def test_same_bytes_as_the_program(web_page: Page, given: Any, least: int) -> None:
    due = list(given())
    assert len(due) >= least
    for at in range(0, len(due), TOGETHER):
        part = due[at:at + TOGETHER]
        asked = [(words, base64.b64encode(case["input"]).decode("ascii")) for words, case in part]
        played = web_page.driver.execute_async_script(PLAY_ALL, asked)
        assert isinstance(played, list), played
        for (words, case), (status, out, trail) in zip(part, played):
            written = (status, base64.b64decode(out), base64.b64decode(trail))
            assert written == (case["status"], case["out"], case.get("trail") or b""), (words, case["input"][:200])


def play(shown: Page, text: str) -> str:
    """Plays a text. Returns what the page says then."""
    shown.driver.execute_script("const [world, said] = ['world', 'said'].map((id) => document.getElementById(id)); "
                                "world.value = arguments[0]; said.value = ''; document.getElementById('play').click()", text)
    return awaited(shown, "!document.getElementById('play').disabled && document.getElementById('said').value")


def awaited(shown: Page, expression: str) -> str:
    """The value of an expression, once it is one."""
    WebDriverWait(shown.driver, PATIENCE).until(lambda _: shown.evaluate(expression))
    value: str = shown.evaluate(expression)
    return value


@pytest.mark.parametrize("width", (400, 1280))
def test_a_run_is_shown(web_page: Page, width: int) -> None:
    text = (EXAMPLES / "backup_for_all.txt").read_bytes()
    web_page.resize(width, 900)
    replies = reply_lines(labsys("play", "/dev/null", given=text)[1])
    assert play(web_page, text.decode("ascii")) == f"{len(replies)} calls were played." and not web_page.evaluate(TOO_WIDE)
    rows = web_page.evaluate("[...document.querySelectorAll('#calls tr')].map((row) => row.querySelector('.tag').textContent + ' ' + "
                             "row.querySelector('.asks').textContent.split(' ')[0] + ' ' + row.querySelector('.reply').textContent)")
    assert rows == replies
    assert web_page.evaluate("[...document.querySelectorAll('#calls tr')].every((row) => row.querySelectorAll('.own.alive').length === 1)")
    web_page.driver.execute_script("const chosen = document.getElementById('label'); chosen.value = 'internal:eng'; "
                                   "document.getElementById('said').value = ''; chosen.dispatchEvent(new Event('change'))")
    seen = reply_lines(labsys("view", "internal:eng", given=text)[1])
    assert f"sees {len(seen)} of {len(replies)} replies" in awaited(web_page, "document.getElementById('said').value")
    assert web_page.evaluate("document.querySelectorAll('#calls tr:not(.unseen)').length") == len(seen)
    assert web_page.faults() == []


@pytest.mark.parametrize("width", (400, 1280))
def test_a_world_that_is_refused(web_page: Page, width: int) -> None:
    web_page.resize(width, 900)
    said = play(web_page, "world 2\n<b>directory</b>\n")
    assert said == "The status is 2: refused 2 world syntax" and not web_page.evaluate(TOO_WIDE)
