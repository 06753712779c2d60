"""The page that an edit will probably make, where it changed letters of one text: so that the HTML of this
page can be made while the program makes the page. What was foreseen wrongly is thrown away."""
from __future__ import annotations

import html
from typing import Optional, Tuple

from .documents import RANGES

NUMBER = b' id="mw'


def foreseen(page: bytes, document: bytes, given: bytes, edited: bytes) -> Optional[bytes]:
    """The page in which the text that was changed stands in the place of the one that it was; nothing where
    more was changed than letters of one text.

    `document` is the page's HTML, `given` the same in the form that the client has, `edited` what it sent.
    """
    start, end = changed(given, edited)
    before, after = given[start : len(given) - end], edited[start : len(edited) - end]
    opened = given.rfind(b"<", 0, start), given.rfind(b">", 0, start)
    if b"<" in before or b"<" in after or opened[0] > opened[1]:
        return None
    first = opened[1] + 1
    last = len(given) - given.find(b"<", len(given) - end)  # from the end, as in `edited`
    old, new = source_of(given[first : len(given) - last]), source_of(edited[first : len(edited) - last])
    place = page.find(old, place_of(document, given, first))
    return page[:place] + new + page[place + len(old) :] if place >= 0 and old != new else None


def changed(old: bytes, new: bytes) -> Tuple[int, int]:
    """How many bytes both begin with, and how many of what is left both end with."""
    front = shared(old, new, False)
    return front, shared(old[front:], new[front:], True)


def shared(old: bytes, new: bytes, is_behind: bool) -> int:
    """How many bytes both begin with, or end with. Each half that is looked at is as long as what is left, so
    no byte is looked at often."""
    low, high = 0, min(len(old), len(new))
    while low < high:
        half = (low + high + 1) // 2
        if is_behind:
            is_same = old[len(old) - half : len(old) - low] == new[len(new) - half : len(new) - low]
        else:
            is_same = old[low:half] == new[low:half]
        low, high = (half, high) if is_same else (low, half - 1)
    return low


def source_of(text: bytes) -> bytes:
    """The source of a text of the HTML, where no sign in it needs more."""
    return html.unescape(text.decode("utf-8", "replace")).encode() if b"&" in text else text


def place_of(document: bytes, given: bytes, first: int) -> int:
    """Where in the page a text begins, or a place before it: behind what opens the last element before the
    text, or behind this element where it is closed again. `first` is where the text begins in `given`."""
    number = given.rfind(NUMBER, 0, first)
    if number < 0:
        return 0
    name = given[number : given.find(b'"', number + len(NUMBER)) + 1]
    at = document.find(name)
    found = RANGES.search(document, at) if at >= 0 else None
    if found is None:
        return 0
    start, end, opening, _ = map(int, found.groups())
    return end if b"</" in given[number:first] else start + opening
