"""Bold and italic text: what an attribute `style` says of it, and where a new style stands."""
from __future__ import annotations

import re
from typing import List, Optional

from .kinds import CELLS, ITEMS, LINES, is_blank, is_block, is_hidden_name
from .markup import Child, Element
from .original import Original
from .texts import append, is_line_break, tidy

NUMBER = re.compile(r"[0-9]+(?:\.[0-9]+)?")
SLANTED = re.compile(r"(?:italic|oblique)\b")
IMPORTANT = re.compile(r"!\s*important")


def says_bold(element: Element) -> Optional[bool]:
    """Whether its text is bold; nothing where the style doesn't say it."""
    value = declared(element, "font-weight")
    if value in ("bold", "bolder"):
        return True
    if value in ("normal", "lighter"):
        return False
    return float(value) >= 600 if NUMBER.fullmatch(value) else None


def says_italic(element: Element) -> Optional[bool]:
    """Whether its text is italic; nothing where the style doesn't say it."""
    value = declared(element, "font-style")
    if SLANTED.match(value):
        return True
    return False if value == "normal" else None


def is_plain(element: Element, name: str) -> bool:
    """Whether a `b` or an `i` (`name`) that an editor made shows no style of its own: other programs put `b`
    with a normal weight round all that they copy."""
    return (says_bold(element) if name == "b" else says_italic(element)) is False


def declared(element: Element, wanted: str) -> str:
    """The value of a property in small letters, the last one where there are several; empty where there is
    none. Properties whose names only end so, as `mso-bidi-font-weight`, are others."""
    value = ""
    for declaration in element.get("style").lower().split(";"):
        name, _, rest = declaration.partition(":")
        if name.strip() == wanted:
            value = IMPORTANT.sub("", rest).strip()
    return value


def styled_pieces(pieces: List[Child], name: str, original: Optional[Original]) -> List[Child]:
    """What a style (`name`) that an editor made stands round. Where blocks are among it the style is in each
    of them that holds text, since no style goes from one block to another in wikitext."""
    out: List[Child] = []
    line: List[Child] = []

    def close() -> None:
        nonlocal line
        if all(map(shows_nothing, line)):
            out.extend(line)
        else:
            out.append(Element(name, {}, without(line, name)))
        line = []

    for piece in pieces:
        if isinstance(piece, str) or not is_block(piece):
            line.append(piece)
            continue
        close()
        out.append(styled_block(piece, name, original))
    close()
    return out


def styled_block(block: Element, name: str, original: Optional[Original]) -> Element:
    """The block with the style in it; groups, rules and preformatted text stay as they are."""
    if "about" in block.attributes or block.name == "pre":
        return block
    if block.name in LINES or block.name in ITEMS or block.name in CELLS:
        block.children = styled_pieces(block.children, name, original)
        return tidy(block, original)
    for child in block.elements():
        styled_block(child, name, original)
    return block


def shows_nothing(piece: Child) -> bool:
    if isinstance(piece, str):
        return is_blank(piece)
    return is_line_break(piece) or is_hidden_name(piece.name)


def without(pieces: List[Child], name: str) -> List[Child]:
    """The pieces without a style, which is in none of them afterwards."""
    out: List[Child] = []
    for piece in pieces:
        if isinstance(piece, str) or "about" in piece.attributes:
            append(out, piece)
            continue
        piece.children = without(piece.children, name)
        for inner in piece.children if piece.name == name else [piece]:
            append(out, inner)
    return out
