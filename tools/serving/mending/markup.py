"""A lenient reader of HTML as browsers, editors and libraries write it, and the strict writer that wtround
reads.

Both take time in proportion to the text, whatever it holds.
"""
from __future__ import annotations

import html
import re
from functools import lru_cache
from typing import Dict, Iterator, List, Optional, Union

from ..refusals import Refusal

MOST_DEPTH = 300  # nested elements that are read; wtround takes 200

VOID = frozenset("area base br col embed hr img input link meta param source track wbr".split())
RAW = frozenset("script style title textarea xmp iframe noembed noframes".split())  # hold no markup
BLOCKS = frozenset("p h1 h2 h3 h4 h5 h6 hr pre ul ol dl table div section blockquote".split())

# Elements whose end tag may be left out, by the elements whose beginning ends them.
ENDED_BY: Dict[str, frozenset] = {
    "li": frozenset(["li"]),
    **dict.fromkeys(("dt", "dd"), frozenset(["dt", "dd", "p"])),
    **dict.fromkeys(("td", "th"), frozenset(["td", "th", "p"])),
    "tr": frozenset(["td", "th", "tr", "p", "caption"]),
    **dict.fromkeys(
        ("tbody", "thead", "tfoot"), frozenset(["td", "th", "tr", "tbody", "thead", "tfoot", "p", "caption"])
    ),
    **dict.fromkeys(BLOCKS, frozenset(["p"])),
}

TAG = re.compile(r"""<([A-Za-z][^\s"'<>/=]*)((?:\s+[^\s"'<>/=]+(?:\s*=\s*(?:"[^"]*"|'[^']*'))?)*)\s*(/?)>""")
NAME = re.compile(r"[A-Za-z][^\s/>]*")
ATTRIBUTE = re.compile(r"""([^\s"'<>/=]+)(?:\s*=\s*(?:"([^"]*)"|'([^']*)'))?""")
ATTRIBUTE_NAME = re.compile(r"[\s/]*([^\s/>][^\s/>=]*)(\s*=\s*)?")
BARE_VALUE = re.compile(r"[^\s>]*")
REFERENCE = re.compile(r"&(?:#([0-9]+);?|#[xX]([0-9A-Fa-f]+);?|[A-Za-z][A-Za-z0-9]*;?)")
ESCAPED = re.compile("[&<>\x00-\x08\x0b-\x1f]")
ESCAPES = {"&": "&amp;", "<": "&lt;", ">": "&gt;"}
QUOTE, DOUBLE_QUOTE = "'", '"'
IN_SINGLE_QUOTES = ("data-mw", "data-parsoid")
NUMBER = re.compile("mw([1-9][0-9]{0,9})")

Child = Union["Element", str]


class Element:
    """An element; neighbouring texts among its children are one text."""

    __slots__ = ("name", "attributes", "children")

    def __init__(
        self, name: str, attributes: Optional[Dict[str, str]] = None, children: Optional[List[Child]] = None
    ) -> None:
        self.name = name
        self.attributes = attributes or {}
        self.children = children or []

    def get(self, name: str) -> str:
        """The value of an attribute; empty where there is none."""
        return self.attributes.get(name, "")

    @property
    def number(self) -> int:
        """The number of the page's node that it stands for, 0 where there is none."""
        identifier = self.attributes.get("id")
        return number_of(identifier) if identifier else 0

    def elements(self) -> "Iterator[Element]":
        return (child for child in self.children if isinstance(child, Element))

    def walk(self) -> "Iterator[Element]":
        """The elements inside, in document order."""
        stack = [iter(self.children)]
        while stack:
            child = next(stack[-1], None)
            if child is None:
                stack.pop()
            elif isinstance(child, Element):
                yield child
                stack.append(iter(child.children))

    def text(self) -> str:
        """All text inside."""
        parts: List[str] = []
        stack = [iter(self.children)]
        while stack:
            child = next(stack[-1], None)
            if child is None:
                stack.pop()
            elif isinstance(child, str):
                parts.append(child)
            else:
                stack.append(iter(child.children))
        return "".join(parts)


@lru_cache(maxsize=1 << 16)
def number_of(identifier: str) -> int:
    """The number in an `id` of the program, as `mw12`; 0 of any other."""
    found = NUMBER.fullmatch(identifier)
    number = int(found[1]) if found else 0
    return number if number <= 0xFFFFFFFF else 0


# ---------------------------------------------------------------- reading


def cut_off(what: str) -> Refusal:
    return Refusal(422, "HtmlRefused", f"The HTML ends inside {what}: send all of it.", why="End")


class Reader:
    """Reads one document. Raises Refusal where it ends too early, or is nested too deep."""

    def __init__(self, text: str) -> None:
        self._text = text
        self._place = 0
        self._open = [Element("#document")]
        self._pieces: List[str] = []  # of the text that ends the last open element so far
        self._counts: Dict[str, int] = {}  # open elements of each name

    def read(self) -> Element:
        text = self._text
        while self._place < len(text):
            start = text.find("<", self._place)
            if start != self._place:
                end = start if start >= 0 else len(text)
                self._add_text(resolved(text[self._place : end]))
                self._place = end
            else:
                self._markup()
        self._end_text()
        return self._open[0]

    def _markup(self) -> None:
        text, place = self._text, self._place
        tag = TAG.match(text, place)
        if tag:
            self._place = tag.end()
            self._begin(tag[1].lower(), attributes_of(tag[2]), bool(tag[3]))
        elif text.startswith("</", place):
            self._end_tag()
        elif text.startswith("<!--", place):
            abrupt = re.compile("<!---?>").match(text, place)
            self._place = abrupt.end() if abrupt else self._behind("-->", place + 4, "a comment")
        elif text.startswith("<![CDATA[", place):
            self._place = self._behind("]]>", place, "a CDATA section")
            self._add_text(text[place + 9 : self._place - 3])
        elif text.startswith(("<!", "<?"), place):
            self._place = self._behind(">", place, "a declaration")
        elif NAME.match(text, place + 1):
            self._loose_tag()
        else:
            self._place += 1
            self._add_text("<")

    def _behind(self, end: str, place: int, what: str) -> int:
        found = self._text.find(end, place)
        if found < 0:
            raise cut_off(what)
        return found + len(end)

    def _loose_tag(self) -> None:
        """A start tag with values that have no quotes, or the like."""
        text = self._text
        name = NAME.match(text, self._place + 1)
        assert name is not None
        place, attributes = name.end(), {}
        while True:
            found = ATTRIBUTE_NAME.match(text, place)
            if not found:
                break
            place, value = found.end(), ""
            if found[2] and text[place : place + 1] in ('"', "'"):
                end = self._behind(text[place], place + 1, "a tag")
                value, place = text[place + 1 : end - 1], end
            elif found[2]:
                bare = BARE_VALUE.match(text, place)
                assert bare is not None
                value, place = bare[0], bare.end()
            attributes.setdefault(found[1].lower(), resolved(value, is_value=True))
        end = self._behind(">", place, "a tag")
        self._place = end
        self._begin(name[0].lower(), attributes, text[end - 2] == "/")

    def _end_tag(self) -> None:
        end = self._behind(">", self._place, "an end tag")
        name = NAME.match(self._text, self._place + 2)
        self._place = end
        if name and self._counts.get(name[0].lower()):
            self._end(name[0].lower())

    def _begin(self, name: str, attributes: Dict[str, str], is_closed: bool) -> None:
        self._end_text()
        ended = ENDED_BY.get(name)
        while ended and self._open[-1].name in ended:
            self._end(self._open[-1].name)
        element = Element(name, attributes)
        self._open[-1].children.append(element)
        if name in RAW and not is_closed:
            self._raw(name)
        elif name not in VOID and not is_closed:
            if len(self._open) > MOST_DEPTH:
                sentence = f"More than {MOST_DEPTH} elements stand one inside another: nest them less deeply."
                raise Refusal(422, "HtmlRefused", sentence, why="TooDeep")
            self._open.append(element)
            self._counts[name] = self._counts.get(name, 0) + 1

    def _raw(self, name: str) -> None:
        end = re.compile(f"</{name}", re.IGNORECASE).search(self._text, self._place)
        if not end:
            raise cut_off(f"the element {name}")
        self._place = self._behind(">", end.end(), "an end tag")

    def _end(self, name: str) -> None:
        self._end_text()
        while True:
            ended = self._open.pop()
            self._counts[ended.name] -= 1
            if ended.name == "template":  # what stands in one is no part of the document
                ended.children = []
            if ended.name == name:
                return

    def _add_text(self, text: str) -> None:
        self._pieces.append(text)

    def _end_text(self) -> None:
        text = "".join(self._pieces)
        self._pieces = []
        if text:
            self._open[-1].children.append(text)


def attributes_of(text: str) -> Dict[str, str]:
    attributes: Dict[str, str] = {}
    for name, double, single in ATTRIBUTE.findall(text):
        attributes.setdefault(name.lower(), resolved(double or single, is_value=True))
    return attributes


def resolved(text: str, is_value: bool = False) -> str:
    """A text with its references read. In a value a reference without `;` is none."""
    if "&" not in text:
        return text

    def character(found: "re.Match[str]") -> str:
        if is_value and not found[0].endswith(";"):
            return found[0]
        if found[1]:
            return of_number(found[1].lstrip("0"), 10)
        return of_number(found[2].lstrip("0"), 16) if found[2] else html.unescape(found[0])

    return REFERENCE.sub(character, text)


def of_number(digits: str, base: int) -> str:
    number = int(digits or "0", base) if len(digits) <= 8 else 0x110000
    return "\ufffd" if number > 0x10FFFF or 0xD800 <= number <= 0xDFFF else chr(number)


def read_body(document: str, has_returns: bool = False) -> Element:
    """The body of a document, or of a part of one, as an element `body`. Line breaks of two characters become
    one, unless the page itself `has_returns`, which browsers write as they are."""
    if document.startswith("\ufeff"):
        document = document[1:]
    if "\r" in document and not has_returns:
        document = document.replace("\r\n", "\n").replace("\r", "\n")
    root = Reader(document).read()
    top = next((e for e in root.elements() if e.name == "html"), root)
    body = next((e for e in top.elements() if e.name == "body"), None)
    if body is not None:
        return body
    return Element("body", {}, [c for c in top.children if isinstance(c, str) or c.name != "head"])


# ---------------------------------------------------------------- writing


def written(body: Element) -> str:
    """The strict document of a body."""
    parts = ['<!DOCTYPE html><html><head><meta charset="utf-8"/></head>']
    write(body, parts)
    parts.append("</html>")
    return "".join(parts)


def write(element: Element, parts: List[str]) -> None:
    tag = f"<{element.name}{written_attributes(element)}"
    if element.name in VOID:
        parts.append(tag + "/>")
        return
    parts.append(tag + ">")
    for child in element.children:
        if isinstance(child, str):
            parts.append(ESCAPED.sub(escape, child))
        else:
            write(child, parts)
    parts.append(f"</{element.name}>")


def written_attributes(element: Element) -> str:
    return "".join(written_attribute(name, value) for name, value in element.attributes.items())


def written_attribute(name: str, value: str) -> str:
    text = ESCAPED.sub(escape, value)
    if name in IN_SINGLE_QUOTES:
        return f" {name}='{text.replace(QUOTE, '&#39;')}'"
    return f' {name}="{text.replace(DOUBLE_QUOTE, "&quot;")}"'


def escape(found: "re.Match[str]") -> str:
    return ESCAPES.get(found[0]) or f"&#{ord(found[0])};"
