"""What a link leads to: a page of the wiki or an address; and what stands at its edges."""
from __future__ import annotations

import re
from typing import Dict, List, Optional

from .kinds import is_blank
from .markup import Child, Element
from .texts import WHITE, append, is_blank_text, is_empty

# Addresses of other kinds, which no wikitext of ours links to.
OTHER_SCHEME = re.compile(
    "//|(?:javascript|vbscript|data|blob|about|file|mailto|tel|sms|chrome|view-source):", re.IGNORECASE
)
ADDRESS = re.compile("(?:https?|ftp)://.", re.IGNORECASE)
EDGE = " \t\n\u00a0"
ENTITY = re.compile("&(?:#[0-9]+|#x[0-9a-f]+|[a-z][a-z0-9]*);", re.IGNORECASE)
SIGNS = re.compile("[\x00- <>\"\\[\\]{|}\x7f]|'{2,}")


def link_target(href: str, rel: str, was: str = "") -> Optional[Dict[str, str]]:
    """`rel` and `href` as the program takes them; nothing where it can be no link. `rel` is empty where the
    browser or another editor made the link; `was` is the `href` that the page's link has, which stays as it
    is."""
    address = href.strip(" \t\n\r")
    if rel == "mw:WikiLink" or (rel != "" and href == was):
        return {"rel": rel, "href": href}
    if ADDRESS.match(address):
        return {"rel": "mw:ExtLink", "href": escaped_address(address)}
    if rel == "mw:ExtLink":
        return {"rel": rel, "href": href}
    if address == "" or OTHER_SCHEME.match(address):
        return None
    if not address.startswith("./"):
        address = "./" + re.sub("[ \t\n\r]+", "_", address)
    return {"rel": "mw:WikiLink", "href": address}


def escaped_address(address: str) -> str:
    """An address without what would end it in wikitext, or mean something there: two apostrophes, braces, a
    bar, an entity."""
    apart = ENTITY.sub(lambda entity: f"{entity[0][:-1]}%3B", address)
    return SIGNS.sub(lambda signs: "".join(f"%{ord(sign):02X}" for sign in signs[0]), apart)


def with_edges_outside(link: Element, was: str) -> List[Child]:
    """Blanks at a link's edges that the page's link hadn't stand outside it."""
    front = back = ""
    children = link.children
    if children and isinstance(children[0], str) and not was[:1].isspace():
        text = children[0]
        front = text[: len(text) - len(text.lstrip(EDGE))]
        children[0] = text[len(front) :]
    if children and isinstance(children[-1], str) and not was[-1:].isspace():
        text = children[-1]
        back = text[len(text.rstrip(EDGE)) :]
        children[-1] = text[: len(text) - len(back)]
    link.children = [piece for piece in children if piece != ""]
    if is_empty(link.children):
        return [front + back]
    pieces: List[Child] = [front, link, back]
    return [piece for piece in pieces if piece != ""]


class Line:
    """What stands in a line, as it is put together. A blank that is left at an edge of a link, where a word
    of it was deleted, goes where there is one beside it."""

    def __init__(self) -> None:
        self._pieces: List[Child] = []
        self._edge = ""  # a blank that a link has left behind it

    def add(self, piece: Child) -> None:
        if piece == "":
            return
        if not isinstance(piece, str) or not piece.startswith(tuple(WHITE)):
            append(self._pieces, self._edge)
        self._edge = ""
        append(self._pieces, piece)

    def add_link(self, pieces: List[Child]) -> None:
        """`pieces`: a link of the page, and blanks from its edges."""
        before = self._pieces[-1] if self._pieces else ""
        is_behind_blank = isinstance(before, str) and before.endswith(tuple(WHITE))
        rest = pieces[1:] if is_behind_blank and pieces and is_blank_text(pieces[0]) else pieces
        edge = rest[-1] if rest else None
        has_edge = isinstance(edge, str) and is_blank(edge)
        for piece in rest[:-1] if has_edge else rest:
            self.add(piece)
        if isinstance(edge, str) and has_edge:
            self._edge = edge

    def end(self) -> List[Child]:
        """All that was added."""
        append(self._pieces, self._edge)
        return self._pieces
