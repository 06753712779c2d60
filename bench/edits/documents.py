"""The HTML that wtround writes, as a tree that knows where each part stands in the document's text."""
from __future__ import annotations

import json
import re
from dataclasses import dataclass, field
from html import unescape
from typing import Dict, Iterator, List, Optional, Tuple

TOKEN = re.compile(
    r"<!DOCTYPE[^>]*>|<(?P<end>/?)(?P<name>[a-z][a-z0-9]*)"
    r"(?P<attributes>(?:\s+[a-z0-9:-]+=(?:\"[^\"]*\"|'[^']*'))*)\s*/?>|[^<]+",
    re.IGNORECASE,
)
ATTRIBUTE = re.compile(r"([a-z0-9:-]+)=(?:\"([^\"]*)\"|'([^']*)')")
WITHOUT_END = {"br", "hr", "meta", "link", "base"}
NUMBER = re.compile(r"mw[1-9][0-9]*")


@dataclass(eq=False)
class Part:
    """An element, or a text (its name is empty). Places are in characters of the document: `start` and `end`
    of all of it, `inside` and `inside_end` of what it holds."""

    name: str
    start: int
    inside: int
    inside_end: int = 0
    end: int = 0
    text: str = ""
    attributes: Dict[str, str] = field(default_factory=dict)
    parent: Optional["Part"] = None
    children: List["Part"] = field(default_factory=list)

    def walk(self) -> Iterator["Part"]:
        yield self
        for child in self.children:
            yield from child.walk()

    def elements(self) -> List["Part"]:
        return [child for child in self.children if child.name]

    def texts(self) -> List["Part"]:
        return [child for child in self.children if not child.name]

    def shown_text(self) -> str:
        return self.text + "".join(child.shown_text() for child in self.children)

    @property
    def is_numbered(self) -> bool:
        """Whether it is a node of the page that an edit may change: not a group, nor a part of one."""
        return bool(NUMBER.fullmatch(self.attributes.get("id", ""))) and "about" not in self.attributes

    def data(self) -> dict:
        return json.loads(self.attributes.get("data-parsoid", "{}"))

    def range(self) -> Tuple[int, int]:
        """Where it stands in the page, in bytes."""
        start, end = self.data()["dsr"][:2]
        return start, end


def parsed(document: str) -> Part:
    """The body of a document that wtround wrote: each element that has an end tag is ended by it."""
    root = part = Part("", 0, 0)
    for found in TOKEN.finditer(document):
        name = (found["name"] or "").lower()
        if not name:
            if not found[0].startswith("<"):
                start, end = found.span()
                part.children.append(Part("", start, start, end, end, unescape(found[0]), {}, part))
        elif found["end"]:
            assert part.parent is not None and part.name == name, found[0]
            part.inside_end, part.end = found.start(), found.end()
            part = part.parent
        else:
            values = ATTRIBUTE.findall(found["attributes"])
            attributes = {key: unescape(one or other) for key, one, other in values}
            made = Part(name, found.start(), found.end(), found.end(), found.end(), "", attributes, part)
            part.children.append(made)
            if name not in WITHOUT_END:
                part = made
    return next(found for found in root.walk() if found.name == "body")
