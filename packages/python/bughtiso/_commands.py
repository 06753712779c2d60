"""The commands, as calls."""
from __future__ import annotations

import json
import os
from typing import Callable, Dict, Iterable, List, Mapping, NamedTuple, NewType, Optional, Sequence, Union

from ._engines import Answer, Engine, engine, file_name
from ._refusal import Refusal

#: Wikitext or HTML: text, or its bytes in UTF-8.
Text = Union[str, bytes]

#: The pages of a wiki by their full names, as ``Template:Lang``: any mapping, also one that looks each page up.
Pages = Mapping[str, Text]


#: The number of a node: its ``id`` is ``mw`` and this number.
NodeNumber = NewType("NodeNumber", int)

#: A place in a page: how many bytes of its UTF-8 come before. It is no index into a ``str``.
BytePlace = NewType("BytePlace", int)

#: How many bytes something has.
ByteCount = NewType("ByteCount", int)


class Range(NamedTuple):
    """Where a node is in its page."""

    #: the number of its ``id``
    number: NodeNumber
    #: what it is, as ``p``, ``h2`` or ``group``
    kind: str
    start: BytePlace
    end: BytePlace
    #: the widths of its two delimiters
    open: ByteCount
    close: ByteCount


with open(os.path.join(os.path.dirname(__file__), "findings.json"), encoding="utf-8") as _file:
    _SENTENCES: Dict[str, str] = json.load(_file)


class Finding(NamedTuple):
    """A doubtful place of a page, such as bold text that nothing closes."""

    #: what it is, as ``OpenStyle``
    kind: str
    #: its line, and the byte of that line, both from 1
    line: int
    column: int
    #: its range in the page
    start: BytePlace
    end: BytePlace

    @property
    def sentence(self) -> str:
        """What is wrong, and what to do."""
        return _SENTENCES.get(self.kind, self.kind)


_engine: Optional[Engine] = None


def _default_engine() -> Engine:
    global _engine
    if _engine is None:
        _engine = engine()
    return _engine


def _bytes(text: Text) -> bytes:
    return text.encode() if isinstance(text, str) else bytes(text)


def _look_up(pages: Pages, name: str) -> Optional[bytes]:
    try:
        return _bytes(pages[name])
    except KeyError:
        return None


def run(words: Sequence[str], data: Text = b"", pages: Optional[Pages] = None, *, by: Optional[Engine] = None) -> Answer:
    """The answer to the words of a command, as on the command line: ``["html", "Opava"]``.

    ``data`` is its standard input. What a look-up in ``pages`` raises, other than `KeyError`, is raised here. ``by`` is
    what answers; by default `engine()`.
    """
    known: Pages = {} if pages is None else pages
    return (by or _default_engine()).answer(words, _bytes(data), lambda name: _look_up(known, name), lambda: known)


class _WithPage:
    """The pages of a wiki, and the page of a command in front of them: the one that is asked for first."""

    def __init__(self, text: bytes, title: str, pages: Pages) -> None:
        self._text, self._pages = text, pages
        self._name: Optional[str] = None
        self._title = title

    def fetch(self, name: str) -> Optional[bytes]:
        if self._name is None:
            self._name = name
        return self._text if name == self._name else _look_up(self._pages, name)

    def names(self) -> Iterable[str]:
        words = " ".join(self._title.replace("_", " ").split())
        own = self._name = words[:1].upper() + words[1:] if words[:1].isascii() else words
        yield from (name for name in self._pages if file_name(name) != file_name(own))
        yield own


def _answer(command: str, text: Text, title: str, pages: Optional[Pages], data: bytes = b"") -> bytes:
    with_page = _WithPage(_bytes(text), title, {} if pages is None else pages)
    return _done(_default_engine().answer([command, title], data, with_page.fetch, with_page.names))


def _done(answer: Answer) -> bytes:
    """What a command wrote, or what it raises."""
    if answer.status == 0:
        return answer.out
    if answer.status <= 4:
        raise Refusal(answer.line, answer.status)
    if answer.status in (7, 8):
        raise MemoryError(answer.line.strip() or "no memory")
    raise OSError(answer.line.strip() or f"wtround ended with status {answer.status}")


def html(text: Text, pages: Optional[Pages] = None, *, title: str = "Page") -> str:
    """The annotated HTML of a page, with its templates, which are taken from ``pages``.

    ``title`` is the page's full name; it counts only where the page calls itself. Raises `Refusal`.
    """
    return _answer("html", text, title, pages).decode()


def edit(text: Text, edited: Text, pages: Optional[Pages] = None, *, title: str = "Page") -> str:
    """The new wikitext of a page: ``edited`` is its HTML as an editor changed it, with the changed blocks marked.

    What stands outside the marked blocks is the same byte for byte. Raises `Refusal`.
    """
    return _answer("edit", text, title, pages, _bytes(edited)).decode()


def wikitext(source: Text) -> str:
    """The wikitext of the page for which HTML stands that `html` wrote. Raises `Refusal`."""
    nothing: Callable[[], Iterable[str]] = tuple
    return _done(_default_engine().answer(["wikitext"], _bytes(source), lambda name: None, nothing)).decode()


def expand(text: Text, pages: Optional[Pages] = None, *, title: str = "Page") -> str:
    """The page with its templates expanded. Raises `Refusal`."""
    return _answer("expand", text, title, pages).decode()


def ranges(text: Text, pages: Optional[Pages] = None, *, title: str = "Page") -> List[Range]:
    """Where each node of the page stands that has a number. Raises `Refusal`."""
    found = []
    for line in _answer("ranges", text, title, pages).decode().splitlines():
        name, kind, *numbers = line.split(" ")
        start, end, opened, closed = map(int, numbers)
        number = NodeNumber(int(name[2:]))
        place = BytePlace(start), BytePlace(end)
        found.append(Range(number, kind, *place, ByteCount(opened), ByteCount(closed)))
    return found


def lint(text: Text, pages: Optional[Pages] = None, *, title: str = "Page") -> List[Finding]:
    """The doubtful places of the page, in the order of their ranges. Raises `Refusal`."""
    found = []
    for answered in _answer("lint", text, title, pages).decode().splitlines():
        kind, *numbers = answered.split(" ")
        line, column, start, end = map(int, numbers)
        found.append(Finding(kind, line, column, BytePlace(start), BytePlace(end)))
    return found
