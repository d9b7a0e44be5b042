"""What a browser shows of a page. Each function returns what is wrong with it: an empty list if nothing is."""
from __future__ import annotations

import struct
import time
from pathlib import Path
from typing import Any, Callable

from page import stores
from page.browser import Browser

SIZES = ((1400, 900), (360, 740))
SCHEMES = ("light", "dark")

_MEASURE = Path(__file__).with_name("measure.js").read_text(encoding="utf-8")
_PAINT = "performance.getEntriesByName('first-contentful-paint').map(it => it.startTime)[0] || null"
# Once the browser has drawn what the key did. A place may be off by less than a pixel.
_FOCUS = """new Promise(done => requestAnimationFrame(() => requestAnimationFrame(done))).then(() => {
  const it = document.activeElement, box = it.getBoundingClientRect(), style = getComputedStyle(it);
  return {id: it.id || it.className || it.type,
          outline: style.outlineStyle !== "none" && parseFloat(style.outlineWidth),
          top: box.top, bottom: box.bottom,
          seen: box.top > -1 && box.bottom < innerHeight + 1 && box.left > -1 && box.right < innerWidth + 1};
})"""


def measured(tab: Browser) -> list[str]:
    """What measure.js finds wrong with the page that the tab shows."""
    found: list[str] = tab.value(_MEASURE)
    return found


def pictures(tab: Browser, url: str, folder: Path, name: str) -> list[str]:
    """The page in each scheme and size. Its pictures go to the folder."""
    wrong: list[str] = []
    for scheme in SCHEMES:
        tab.scheme(scheme)
        for width, height in SIZES:
            tab.size(width, height)
            tab.open(url)
            picture = folder / f"{name}-{scheme}-{width}.png"
            tab.picture(picture)
            if _size(picture) != (width, height):
                wrong.append(f"the picture {picture} has another size")
            wrong += [f"{scheme}, {width}: {finding}" for finding in measured(tab)]
    wrong += tab.complaints
    tab.complaints.clear()
    return wrong


def rejected(is_so: bool) -> list[str]:
    """What the browser says of a page that isn't there, each time that it is opened."""
    said = "Failed to load resource: the server responded with a status of 404 (Not Found)"
    return [said] * (len(SIZES) * len(SCHEMES)) if is_so else []


def texts(tab: Browser, text: str) -> int:
    """How often a text is shown."""
    return str(tab.value("document.getElementById('main').innerText")).count(text)


def elements(tab: Browser, selector: str) -> int:
    """How many elements there are of a selector."""
    return int(tab.value(f"document.querySelectorAll({selector!r}).length"))


def first_paint(tab: Browser, url: str, times: int = 5) -> float:
    """How many milliseconds after its request the page first shows something: the fewest of several times, since what
    else the machine does only adds to them.
    """
    tab.size(*SIZES[0])
    found = []
    for _ in range(times):
        tab.open(url)
        found.append(float(_once(lambda: tab.value(_PAINT))))
    return min(found)


def keys(tab: Browser, url: str, count: int = 40) -> list[str]:
    """With the keyboard alone: the first that has the focus skips to the content, and each is seen where it has it."""
    tab.size(*SIZES[0])
    tab.open(url)
    wrong = []
    for at in range(count):
        tab.press("Tab", 9)
        now = tab.value(_FOCUS)
        if at == 0 and now["id"] != "skip":
            wrong.append(f"the first is {now['id']}")
        if not now["seen"] or not now["outline"]:
            wrong.append(f"the focus isn't seen: {now}")
    tab.open(url)
    tab.press("Tab", 9)
    tab.press("Enter", 13)
    if tab.value("document.activeElement.id") != "main":
        wrong.append("the first doesn't skip to the content")
    tab.press("Tab", 9)
    if not tab.value("document.getElementById('main').contains(document.activeElement)"):
        wrong.append("what comes after isn't in the content")
    return wrong


def refreshed(tab: Browser, url: str, store: Path) -> list[str]:
    """An instance that is ordered shows by itself; the focus, what is typed and the place on the page stay."""
    tab.size(*SIZES[0])
    tab.open(url)
    held = tab.value(
        """(() => {
      const link = document.querySelectorAll(".listed a")[6];
      document.getElementById("find").value = "abc";
      link.focus({preventScroll: true});
      scrollBy(0, link.getBoundingClientRect().top - 40);
      return {id: link.id, top: link.getBoundingClientRect().top};
    })()"""
    )
    before = tab.value("document.getElementById('go-ordered').textContent")
    stores.order(store)
    _once(lambda: tab.value("document.getElementById('go-ordered').textContent") != before)
    after = tab.value(
        """(() => {
      const focused = document.activeElement;
      return {id: focused.id, top: focused.getBoundingClientRect().top, typed: document.getElementById("find").value};
    })()"""
    )
    wrong = [] if after["id"] == held["id"] else [f"the focus is at {after['id']}"]
    if abs(after["top"] - held["top"]) > 1:
        wrong.append(f"the row went from {held['top']} to {after['top']}")
    return wrong if after["typed"] == "abc" else [*wrong, "what was typed is gone"]


def alone(tab: Browser) -> list[str]:
    """After the program has ended the page says so, and still shows what it has."""
    said = str(_once(lambda: tab.value("document.getElementById('trouble').textContent")))
    rows = tab.value("document.querySelectorAll('.listed tbody tr').length")
    tab.open("about:blank")
    tab.complaints.clear()  # the browser's own words of it
    return [] if "doesn't answer" in said and rows else [f"it says {said!r}, and has {rows} rows"]


def _once(ask: Callable[[], Any], seconds: float = 30.0) -> Any:
    """What `ask` returns once that is something."""
    until = time.monotonic() + seconds
    while time.monotonic() < until:
        said = ask()
        if said:
            return said
        time.sleep(0.1)
    raise TimeoutError("it didn't come about")


def _size(picture: Path) -> tuple[int, int]:
    head = picture.read_bytes()[:24]
    width, height = struct.unpack(">II", head[16:24])
    return (width, height) if head.startswith(b"\x89PNG") else (0, 0)
