"""The tags of a document, found without reading it as HTML: whether an element bears a mark, and which
numbers its elements have. What a value in quotes or a comment holds is no tag."""
from __future__ import annotations

import re
from typing import Iterator, Tuple

TAG = re.compile(rb"<!--|<([a-z][a-z0-9]*)(?![a-z0-9])((?:[^<>\"']|\"[^\"]*\"|'[^']*')*)>", re.IGNORECASE)
ATTRIBUTE = re.compile(rb"([^\s\"'<>/=]+)(?:\s*=\s*(?:\"([^\"]*)\"|'([^']*)'|([^\s\"'<>]+)))?")
NUMBER = re.compile(rb"mw[1-9][0-9]*(?![A-Za-z0-9_])")
MARK = b"data-wt-edit"


def tags(document: bytes) -> Iterator[Tuple[bytes, bytes]]:
    """The names of the start tags and their attributes, in their order."""
    place = 0
    while True:
        found = TAG.search(document, place)
        if found is None:
            return
        place = found.end()
        if found[1] is not None:
            yield found[1], found[2]
            continue
        place = document.find(b"-->", place)
        if place < 0:
            return


def bears_mark(document: bytes) -> bool:
    """Whether an element has the attribute of a mark. Where its name stands nowhere no tag is looked at."""
    if MARK not in document:
        return False
    return any(
        found[1] == MARK and found.lastindex != 1
        for name, attributes in tags(document)
        if MARK in attributes and name.islower()
        for found in ATTRIBUTE.finditer(attributes)
    )


def numbers(document: bytes) -> Iterator[Tuple[bytes, bytes]]:
    """The name and the number of each element that has one, as `p` and `mw3`."""
    for name, attributes in tags(document):
        if b"mw" not in attributes:
            continue
        for found in ATTRIBUTE.finditer(attributes):
            if found[1].lower() == b"id" and found.lastindex != 1:
                number = NUMBER.match(found[found.lastindex])
                if number is not None:
                    yield name.lower(), number[0]
                break
