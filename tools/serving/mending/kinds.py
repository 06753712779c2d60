"""The elements that a page may have, and what becomes of others."""
from __future__ import annotations

import re
from typing import Callable

from .markup import Child, Element

# The attributes that the program writes.
ATTRIBUTES = frozenset(
    "about typeof property rel href class colspan rowspan scope lang dir id data-mw data-parsoid".split()
)
# Those that a new part of a table may have.
TABLE_ATTRIBUTES = frozenset("class colspan rowspan scope lang dir".split())

HEADINGS = frozenset("h1 h2 h3 h4 h5 h6".split())
LISTS = frozenset("ul ol dl".split())
ITEMS = frozenset("li dt dd".split())
CELLS = frozenset("td th caption".split())
LINES = HEADINGS | {"p"}  # blocks that hold a line or lines of text
BLOCKS = LINES | LISTS | ITEMS | CELLS | frozenset("hr pre table tbody tr section".split())

# Elements of other documents that hold blocks, or are one: they stand for a paragraph where they hold text
# alone.
BOXES = frozenset(
    (
        "div article aside main header footer nav figure figcaption blockquote center address details "
        "summary form fieldset hgroup thead tfoot colgroup"
    ).split()
)
# Elements of which nothing is kept.
LEFT_OUT = frozenset(
    (
        "script style noscript title head template img picture svg math canvas video audio iframe object "
        "embed input button select textarea option base col wbr area map"
    ).split()
)
SAME = {"strong": "b", "em": "i"}  # what other editors write for ours
# Pairs of tags that stand in a page's text: those of the page stay, new ones can't be written.
TAGS = frozenset("sup sub small s u code span".split())
MARK = re.compile("mw:(?:Comment|Skip|Includes/)")
# The `typeof` of what is one thing: of the program's, and what other editors write for new ones.
THING = re.compile(r"(?:^|\s)mw:(?:Extension/|Placeholder|Transclusion|File|Image|Video|Audio)")
SECTION_ATTRIBUTE = re.compile("[a-z][a-z0-9:-]*")
BLANK = " \t\n\r\f\u00a0"


def name_of(element: Element) -> str:
    """Our name for an element; `box` where it is a box of another document, empty where nothing of it is
    kept."""
    name = element.name
    if name == "template":
        return element.get("data-wt-name")
    if is_thing(element):
        return "span"
    if name in LEFT_OUT:
        return ""
    if name in BOXES:
        return "box"
    return SAME.get(name, name)


def is_thing(element: Element) -> bool:
    """Whether an element of another name is what the program writes as a `span`, as a `figure` or a `sup` of
    Parsoid's."""
    is_ours = is_hidden_name(element.name) or "about" in element.attributes
    return not is_ours and bool(THING.search(element.get("typeof")))


def is_block(piece: Child) -> bool:
    return not isinstance(piece, str) and piece.name in BLOCKS


def is_block_name(name: str) -> bool:
    """Whether an element with our name stands as a block."""
    return name == "box" or name in BLOCKS


def is_hidden_name(name: str) -> bool:
    """Comments, include tags, skips, switches, categories: they show nothing."""
    return name in ("meta", "link")


def is_island(value: Callable[[str], str]) -> bool:
    """An element that is one thing: a group, an extension, what is kept as it stands."""
    return value("about") != "" or bool(THING.search(value("typeof")))


def is_mark(part: Element) -> bool:
    """A comment, an include tag or a skip, which no edit of texts compares."""
    return part.name == "meta" and bool(MARK.match(part.get("typeof")))


def hidden_kind(part: Element) -> str:
    """What a category, a switch or the like says: two of one kind are the same for the page."""
    return " ".join(part.get(name) for name in ("typeof", "property", "rel", "href"))


def is_blank(text: str) -> bool:
    """Whether nothing but blanks and line breaks, also those that don't break, stands there."""
    return not text.strip(BLANK)


def may_have(name: str, attribute: str) -> bool:
    """Whether a new element may have an attribute."""
    if name in ("table", "tr", "td", "th"):
        return attribute in TABLE_ATTRIBUTES
    if name == "span":
        return attribute in ("typeof", "data-mw")
    if name in ("meta", "link"):
        return attribute in ATTRIBUTES and attribute not in ("id", "data-parsoid")
    if name == "section":
        return bool(SECTION_ATTRIBUTE.fullmatch(attribute)) and attribute != "data-wt-edit"
    return name == "body" and attribute == "data-parsoid"
