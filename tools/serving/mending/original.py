"""A page as it was opened: its nodes by their numbers, to compare with what an editor made of them."""
from __future__ import annotations

import re
from typing import Callable, Dict, Optional, Set

from .kinds import is_block
from .markup import Element

# What browsers and editors put into a text beside what is typed, and what may be pasted: white space and
# signs without a width, and what no XML can hold, as the marks of footnotes and cells of a word processor.
PUT_SIGNS = re.compile("[\0-\x08\v-\x1f\u00a0\u200b\ufeff\ufffe\uffff]")


def kind_of(name: str, value: Callable[[str], str]) -> str:
    """What an element is, in one word: an `id` counts only on an element of the kind that it had."""
    if value("about") != "":
        return "group"
    if name in ("a", "link"):
        return f"{name} {value('rel')}"
    return f"{name} {value('typeof')} {value('property')}".rstrip()


class Kept:
    """A node of the page as it was."""

    __slots__ = ("part", "parent", "at", "kind", "is_inline")

    def __init__(self, part: Element, parent: "Optional[Kept]", at: int) -> None:
        self.part = part
        self.parent = parent  # the node that it stands in, none in the body
        self.at = at  # which child of its parent's element it is
        self.kind = kind_of(part.name, part.get)
        self.is_inline = not any(map(is_block, part.children))  # texts and inline elements alone stand in it


class Original:
    """`page` is the body."""

    def __init__(self, page: Element) -> None:
        self.page = page
        self.nodes: Dict[int, Kept] = {}
        self._signs: Optional[Set[str]] = None  # those of the page's text, each between its neighbours
        self._collect(page, None)

    def has_sign(self, three: str) -> bool:
        """Whether the page's text has a no-break space, a carriage return or a sign without a width between
        the same two characters. `three` is the sign between its neighbours."""
        if self._signs is None:
            text = self.page.text()
            places = (found.start() for found in PUT_SIGNS.finditer(text))
            self._signs = {text[max(at - 1, 0) : at + 2] for at in places}
        return three in self._signs

    def _collect(self, part: Element, parent: Optional[Kept]) -> None:
        for at, child in enumerate(part.children):
            if isinstance(child, str):
                continue
            kept, number = parent, child.number
            if number != 0:
                kept = self.nodes[number] = Kept(child, parent, at)
            if "about" not in child.attributes:
                self._collect(child, kept)
