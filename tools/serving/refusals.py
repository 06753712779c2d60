"""Refusals: what the server answers instead of a page, as JSON that a client can show."""
from __future__ import annotations

import json
import re
from dataclasses import dataclass, field
from typing import Any, List, Optional, Tuple

from .other_tools import explanations

VOID = explanations.VOID
TAG = explanations.TAG


@dataclass
class Refusal(Exception):
    """A request that is answered with an error.

    `element` counts the elements of the HTML that was sent from 1, in document order; `node` is `mwN`, or the
    element's path where it has no such id; `path` is a CSS selector that finds it.
    """

    status: int
    error: str
    sentence: str
    line: Optional[str] = None  # what the program wrote
    why: Optional[str] = None
    element: Optional[int] = None
    node: Optional[str] = None
    path: Optional[str] = None
    headers: dict = field(default_factory=dict)

    def body(self) -> bytes:
        names = ("error", "status", "line", "why", "element", "node", "path", "sentence")
        return json.dumps({name: getattr(self, name) for name in names}).encode() + b"\n"


# ---------------------------------------------------------------- what the program wrote

NAMES = [  # of each line that is no `edit refused: NAME`: a pattern, the error's name, its status
    ("usage: .*", "BadWords", 500),
    ("no such page", "NoSuchPage", 404),
    ("page too long", "PageTooLong", 422),
    ("page not UTF-8 at .*", "PageNotUtf8", 422),
    ("braces too deep at .*", "BracesTooDeep", 422),
    ("expansion too large", "ExpansionTooLarge", 422),
    ("html too long", "HtmlTooLong", 422),
    ("input too long", "InputTooLong", 413),
    ("html refused at .*", "HtmlRefused", 422),
    ("element [0-9]+ does not fit: .*", "ElementDoesNotFit", 422),
    ("element [0-9]+ has no source", "ElementHasNoSource", 422),
    ("read fault", "ReadFault", 500),
    ("folder fault", "FolderFault", 500),
    ("write fault", "WriteFault", 500),
    ("no memory", "NoMemory", 503),
    (".* not UTF-8 at .*", "TemplateNotUtf8", 422),
    (".* too long", "TemplateTooLong", 422),
]

WITH_REASON = ("HtmlRefused", "ElementDoesNotFit", "BadContent")
ABOUT_DOCUMENT = ("HtmlRefused", "ElementDoesNotFit", "ElementHasNoSource")


def from_line(line: str, document: Optional[bytes] = None) -> Refusal:
    """The refusal for a line of wtround; `document` is the HTML that it was given, if it was."""
    text = line.strip()
    text = text[len("wtround: ") :] if text.startswith("wtround: ") else text
    try:
        told = explanations.read_refusal(text)
    except explanations.ExplainError:
        sentence = "The program answered what the server doesn't know: is it of another version?"
        return Refusal(500, "ProgramFailed", sentence, text)
    edit = re.fullmatch("edit refused: ([A-Za-z]+).*", text)
    if edit:
        error, status = edit[1], 422
    else:
        error, status = next((name, status) for pattern, name, status in NAMES if re.fullmatch(pattern, text))
    why = re.search(" ([A-Z][A-Za-z0-9]+)$", text) if error in WITH_REASON else None
    refusal = Refusal(status, error, told.advice, text, why[1] if why else None)
    is_about_document = edit or error in ABOUT_DOCUMENT
    if document is not None and is_about_document and told.locate is not None:
        locate(refusal, told, document)
    return refusal


def locate(refusal: Refusal, told: Any, document: bytes) -> None:
    """Says which element of the document a refusal is about."""
    if refusal.error == "HtmlRefused":  # up to its place the document is well-formed
        document, place = document[: told.number], told.number
    else:
        place = told.locate(document, told.number)
    found = element_at(document, place) if place is not None else None
    if found is not None:
        refusal.element, refusal.path, identifier = found
        refusal.node = identifier if re.fullmatch("mw[1-9][0-9]*", identifier) else refusal.path


def element_at(document: bytes, place: int) -> Optional[Tuple[int, str, str]]:
    """The last element that begins at a place or before it: its number, its path and its id."""
    counts: List[int] = [0]  # of children, of each open element
    opened: List[Tuple[str, int]] = []
    last, number = None, 0
    for tag in TAG.finditer(document):
        if tag.start() > place:
            break
        if tag[1]:
            if opened:
                opened.pop()
                counts.pop()
            continue
        number += 1
        counts[-1] += 1
        name = tag[2].decode()
        last = (number, [*opened, (name, counts[-1])], tag)
        if name not in VOID:
            opened.append((name, counts[-1]))
            counts.append(0)
    if last is None:
        return None
    return last[0], selector(last[1]), explanations.attributes_of(last[2][3]).get("id", "")


def selector(steps: List[Tuple[str, int]]) -> str:
    """A CSS selector: from the body where there is one."""
    names = [name for name, _ in steps]
    start = names.index("body") if "body" in names else 0
    return " > ".join([steps[start][0]] + [f":nth-child({k})" for _, k in steps[start + 1 :]])
