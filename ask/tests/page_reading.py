"""What the tests read from a page in a browser, by expressions of JavaScript."""
from typing import Any, Iterator, List, Sequence

from browser import Page

from labask.worlds import UTILITIES, quoted, split_words

# the rows that are not greyed, each with its process, what it asks for and its reply; and where the crossing stands
SEEN = """[...document.querySelectorAll('tr[id^="call-"]:not(.unseen)')].map(row =>
  ["w", "c", "r"].map(name => row.querySelector("." + name).textContent))"""
CROSSING = """[...document.querySelectorAll("tr.crossing")].map(row => row.nextElementSibling.id + "|" + row.textContent)"""
DETAIL = """(() => {
  const detail = document.querySelector("tr.detail");
  if (!detail) return null;
  const terms = {};
  detail.querySelectorAll("dt").forEach(term => terms[term.textContent] = term.nextElementSibling);
  return { row: detail.previousElementSibling.id, reply: terms.Reply.textContent, caller: terms["Caller before it"].textContent,
    trail: [...terms.Trail.querySelectorAll("code")].map(code => code.textContent), seers: terms["Reply is seen by"].textContent,
    script: terms.Script.querySelector("code").textContent,
    why: terms.Why ? [...terms.Why.children].map(line => line.textContent) : null };
})()"""
GREY = """[...document.querySelectorAll("tbody[data-tag]")].map(life => [life.dataset.tag, life.classList.contains("unseen")])"""
WHOLE = "new Promise(done => { const look = () => document.querySelector('.later') ? setTimeout(look, 20) : done(); look(); })"
HASH = "(async () => { location.hash = %s; await new Promise(done => setTimeout(done)); })()"
PRINTED = """[...document.querySelectorAll("tr[id^=call-]")].filter(row => row.getBoundingClientRect().height > 5).length"""
SHOWN = "[...document.querySelectorAll('tr[id^=call-]')].filter(row => row.checkVisibility()).map(row => row.id)"
SET = """(() => {
  const control = document.getElementById(%r);
  control.value = %r;
  control.dispatchEvent(new Event(%r));
})()"""

# elements with text, and texts that the style sheet puts before elements, whose contrast to their background is below 4.5
CONTRAST = """(() => {
  const light = (colour) => {
    const parts = colour.match(/[\\d.]+/g).map(Number).slice(0, 3).map(part => part / 255)
      .map(part => part <= 0.04045 ? part / 12.92 : ((part + 0.055) / 1.055) ** 2.4);
    return 0.2126 * parts[0] + 0.7152 * parts[1] + 0.0722 * parts[2];
  };
  const behind = (element) => {
    for (let each = element; each; each = each.parentElement) {
      const colour = getComputedStyle(each).backgroundColor;
      if (!/, 0\\)$/.test(colour) && colour !== "transparent") return colour;
    }
    return "rgb(255, 255, 255)";
  };
  const found = [];
  const measure = (element, style, text) => {
    const [one, two] = [light(style.color), light(behind(element))].sort((a, b) => b - a);
    const contrast = (one + 0.05) / (two + 0.05);
    if (contrast < 4.5 || style.opacity !== "1") found.push([contrast.toFixed(2), element.tagName, element.className, text].join("|"));
  };
  for (const element of document.querySelectorAll("body *")) {
    const own = [...element.childNodes].some(node => node.nodeType === 3 && node.data.trim());
    if (!own || element.closest("script, noscript") || !element.checkVisibility()) continue;
    measure(element, getComputedStyle(element), element.textContent.slice(0, 40));
  }
  for (const element of document.querySelectorAll("tbody *")) {
    const before = getComputedStyle(element, "::before");
    if (element.checkVisibility() && /[^"]/.test(before.content.replace(/^(none|normal)$/, ""))) measure(element, before, before.content);
  }
  return found;
})()"""

# at narrow widths: what scrolls sideways, and cells of rows that stand without what heads their column
SCROLLED = """[...document.querySelectorAll("*")].filter(each => each.scrollWidth > each.clientWidth + 1
  && ["auto", "scroll"].includes(getComputedStyle(each).overflowX)).map(each => each.tagName + "." + each.className)"""
UNHEADED = """[...document.querySelectorAll("tbody > tr:not(.note, .crossing, .detail) > td")].filter(cell => cell.checkVisibility()
  && !/[a-z]/i.test(getComputedStyle(cell, "::before").content.replace(/^(none|normal)$/, ""))).map(cell => cell.outerHTML)"""
FOCUSED = "document.activeElement.closest('tr')?.id ?? ''"

# cells and other elements that lie over their neighbours, or whose content is wider than they are
OVERLAPS = """(() => {
  const found = [];
  const over = (one, two) => one.left + 0.5 < two.right && two.left + 0.5 < one.right && one.top + 0.5 < two.bottom
    && two.top + 0.5 < one.bottom;
  for (const row of document.querySelectorAll("tr")) {
    const boxes = [...row.children].map(cell => cell.getBoundingClientRect());
    if (boxes.some((box, index) => index && over(box, boxes[index - 1]))) found.push("cells " + row.textContent.slice(0, 40));
  }
  for (const cell of document.querySelectorAll("td:not(.g), th:not(.g), h1, h2, p, li, option, output, button"))
    if (cell.scrollWidth > cell.clientWidth + 1 && cell.clientWidth) found.push(cell.tagName + " " + cell.textContent.slice(0, 60));
  for (const cell of document.querySelectorAll(".calls thead th:not(.g)"))
    if (cell.checkVisibility() && cell.getBoundingClientRect().width < 50) found.push("narrow column " + cell.textContent);
  const blocks = [...document.querySelectorAll("main > section, header")].map(block => block.getBoundingClientRect());
  blocks.forEach((box, index) => { if (index && box.top + 0.5 < blocks[index - 1].bottom) found.push("sections"); });
  if (document.documentElement.scrollWidth > innerWidth) found.push("the page is wider than the window");
  return found;
})()"""


def as_lines(seen: Sequence[Sequence[str]]) -> Iterator[str]:
    """The reply lines that rows of the page say."""
    for tag, asks, reply in seen:
        words = split_words(asks.encode("latin-1"))[0]
        path = f" {quoted(words[-1].value)}" if words[0].text in UTILITIES else ""
        yield f"{tag} {words[0].text}{path} {reply}"


def rows_of(page: Page) -> List[str]:
    """The reply lines that the rows of a page say which are not grey."""
    return list(as_lines(page.evaluate(SEEN)))


def detail_of(page: Page) -> Any:
    """What stands below the picked call; None where none is picked."""
    return page.evaluate(DETAIL)
