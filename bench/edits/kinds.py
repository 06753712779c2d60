"""The edits: each takes a document and gives another one, as an editor's user makes it."""
from __future__ import annotations

import random
import re
from dataclasses import dataclass, replace
from html import escape
from typing import Callable, Dict, List, Optional, Sequence, Tuple

from .documents import Part, parsed

# A word in the text of a document, apart from its references.
WORD = re.compile(r"(?<![&#\w;])[A-Za-zÀ-ɏ]{2,}(?![\w;])")
LONE_SPACE = re.compile(r"(?<=[^\s<>]) (?=[^\s<>])")
NEW_WORD = "Newword"
SIGNS = "' '' ] [ [[ | {{ }} <b> &lt; __ http://q.r * = é : #".split()
MARK = ' data-wt-edit="content"'
NOT_EDITED = re.compile("mw:(Transclusion|Extension|Param|Nowiki|Placeholder|Entity)")
TEXT_BLOCKS = ("p", "h1", "h2", "h3", "h4", "h5", "h6", "li", "dt", "dd", "td", "th", "caption")
HEADINGS = ("h1", "h2", "h3", "h4", "h5", "h6")


@dataclass(frozen=True)
class Edited:
    """A document after an edit. `first` and `last`: the ranges in the page, in bytes, of the first and the
    last block that it touches; `gone` and `come`: what it takes out of the source and what it writes, where
    that can be said."""

    document: str
    first: Tuple[int, int]
    last: Tuple[int, int]
    gone: str = ""
    come: str = ""

    @property
    def range(self) -> Tuple[int, int]:
        return self.first[0], self.last[1]


class Document:
    """A document with its editable parts by their names."""

    def __init__(self, text: str) -> None:
        self.text = text
        self.body = parsed(text)
        self._parts: Dict[str, List[Part]] = {}
        self._gather(self.body)

    def _gather(self, part: Part) -> None:
        if "about" in part.attributes or NOT_EDITED.search(part.attributes.get("typeof", "")):
            return
        if part.is_numbered:
            self._parts.setdefault(part.name, []).append(part)
        for child in part.elements():
            self._gather(child)

    def parts(self, names: Sequence[str]) -> List[Part]:
        return [part for name in names for part in self._parts.get(name, ())]

    def words(self, part: Part) -> "List[re.Match[str]]":
        """The words that stand directly in a part."""
        return [found for text in part.texts() for found in WORD.finditer(self.text, text.start, text.end)]

    def with_changes(self, *changes: Tuple[int, int, str]) -> str:
        """The text in which these stretches, in their order, are replaced."""
        out, at = [], 0
        for start, end, text in changes:
            out += [self.text[at:start], text]
            at = end
        return "".join(out) + self.text[at:]

    def edited(
        self, first: Part, last: Part, *changes: Tuple[int, int, str], gone: str = "", come: str = ""
    ) -> Edited:
        return Edited(self.with_changes(*changes), first.range(), last.range(), gone, come)


def block_of(part: Part) -> Optional[Part]:
    """The block whose text a part is in; none in preformatted text, which no edit takes."""
    block: Optional[Part] = part
    while block is not None and block.name not in TEXT_BLOCKS:
        block = block.parent
    return block if block is not None and block.is_numbered else None


def is_list(part: Part) -> bool:
    return part.name in ("ul", "ol", "dl")


def next_sibling(part: Part) -> Optional[Part]:
    assert part.parent is not None
    behind = part.parent.elements()[part.parent.elements().index(part) + 1 :]
    return next((other for other in behind if other.name != "meta"), None)


Edit = Callable[[Document, Part, random.Random], Optional[Edited]]


def word_typed(document: Document, part: Part, chance: random.Random) -> Optional[Edited]:
    words, block = document.words(part), block_of(part)
    if not words or block is None:
        return None
    at = chance.choice(words).end()
    return document.edited(block, block, (at, at, " " + NEW_WORD), come=" " + NEW_WORD)


def word_made_bold(document: Document, part: Part, chance: random.Random) -> Optional[Edited]:
    words = document.words(part)
    if not words:
        return None
    word = chance.choice(words)
    change = (word.start(), word.end(), f"<b>{word[0]}</b>")
    # Four apostrophes would show one of them in bold.
    apart = "<nowiki/>" if document.text.startswith("'", word.end()) else ""
    return document.edited(part, part, change, gone=word[0], come=f"'''{word[0]}'''{apart}")


def word_erased(document: Document, part: Part, chance: random.Random) -> Optional[Edited]:
    words = document.words(part)
    if len(words) < 3:
        return None
    word = chance.choice(words[1:])
    return document.edited(part, part, (word.start(), word.end(), ""), gone=word[0])


def sign_typed(document: Document, part: Part, chance: random.Random) -> Optional[Edited]:
    words = document.words(part)
    if not words:
        return None
    at, sign = chance.choice(words).end(), chance.choice(SIGNS)
    return document.edited(part, part, (at, at, escape(sign, quote=False)), come=sign)


def split(document: Document, part: Part, chance: random.Random) -> Optional[Edited]:
    """Enter at a space of its text."""
    texts = [(text.start, text.end) for text in part.texts()]
    spaces = [found for start, end in texts for found in LONE_SPACE.finditer(document.text, start, end)]
    if not spaces:
        return None
    at = chance.choice(spaces).start()
    return document.edited(part, part, (at, at + 1, f"</{part.name}><{part.name}>"), gone=" ")


def joined(document: Document, part: Part, _: random.Random) -> Optional[Edited]:
    """Backspace at the start of the next block of its kind. Behind an item's list no text may stand."""
    other = next_sibling(part)
    if other is None or other.name != part.name or not other.is_numbered or any(map(is_list, part.children)):
        return None
    return document.edited(part, other, (part.inside_end, other.inside, " "), come=" ")


def removed(document: Document, part: Part, _: random.Random) -> Optional[Edited]:
    assert part.parent is not None
    if part.parent.name not in ("body", "section") and len(part.parent.elements()) < 2:
        return None
    return document.edited(part, part, (part.start, part.end, ""))


def swapped(document: Document, part: Part, _: random.Random) -> Optional[Edited]:
    """Dragged behind the next one."""
    other = next_sibling(part)
    if other is None or other.name != part.name or not other.is_numbered:
        return None
    one, two = document.text[part.start : part.end], document.text[other.start : other.end]
    return document.edited(part, other, (part.start, part.end, two), (other.start, other.end, one))


def made_heading(document: Document, part: Part, _: random.Random) -> Optional[Edited]:
    if "\n" in part.shown_text():
        return None
    opening = document.text[part.start : part.inside].replace("<p", "<h2", 1)
    changes = (part.start, part.inside, opening), (part.inside_end, part.end, "</h2>")
    return document.edited(part, part, *changes)


def added_behind(html: str) -> Edit:
    def added(document: Document, part: Part, _: random.Random) -> Optional[Edited]:
        if part.name in BLOCKS:
            assert part.parent is not None
            if part.parent.name not in ("body", "section"):
                return None
        return document.edited(part, part, (part.end, part.end, html))

    return added


@dataclass(frozen=True)
class Kind:
    """A kind of edit, as the table names it, and of which parts. `exact`: the rule by which nothing of the
    page was spelled anew (see judging)."""

    name: str
    parts: Tuple[str, ...]
    edit: Edit
    exact: str
    is_in_block: bool = False  # `edit` takes it with one mark

    def of(self, document: Document, part: Part, chance: random.Random) -> Optional[Edited]:
        return self.edit(document, part, chance)

    def marked(self, edited: Edited, part: Part) -> Edited:
        """With the mark that `edit` asks for."""
        block = block_of(part)
        assert block is not None
        at = block.inside - 1
        return replace(edited, document=edited.document[:at] + MARK + edited.document[at:])


PARAGRAPHS = ("p",)
WRITTEN = ("p", "li", "td", "dd")
BLOCKS = ("p", *HEADINGS, "ul", "table")
KINDS = [
    Kind("word typed in a paragraph", PARAGRAPHS, word_typed, "same", True),
    Kind("word typed in an item", ("li",), word_typed, "same", True),
    Kind("word typed in a heading", HEADINGS, word_typed, "same", True),
    Kind("word typed in a cell", ("td", "th", "caption"), word_typed, "same", True),
    Kind("word typed in a definition", ("dd", "dt"), word_typed, "same", True),
    Kind("word typed in bold or italic", ("b", "i"), word_typed, "same", True),
    Kind("word typed in a link", ("a",), word_typed, "comes", True),
    Kind("word made bold", WRITTEN, word_made_bold, "same", True),
    Kind("word erased", WRITTEN, word_erased, "same", True),
    Kind("sign typed", WRITTEN, sign_typed, "comes", True),
    Kind("paragraph split", PARAGRAPHS, split, "breaks"),
    Kind("paragraphs joined", PARAGRAPHS, joined, "breaks"),
    Kind("paragraph removed", PARAGRAPHS, removed, "goes"),
    Kind("heading removed", HEADINGS, removed, "goes"),
    Kind("paragraph added", BLOCKS, added_behind("<p>A new paragraph.</p>"), "comes"),
    Kind("paragraphs exchanged", PARAGRAPHS, swapped, "length"),
    Kind("paragraph made a heading", PARAGRAPHS, made_heading, "comes"),
    Kind("item split", ("li",), split, "breaks"),
    Kind("items joined", ("li",), joined, "breaks"),
    Kind("item removed", ("li",), removed, "goes"),
    Kind("item added", ("li",), added_behind("<li>a new item</li>"), "comes"),
    Kind("row added", ("tr",), added_behind("<tr><td>one</td><td>two</td></tr>"), "comes"),
    Kind("row removed", ("tr",), removed, "goes"),
    Kind("cell added", ("td",), added_behind("<td>one</td>"), "comes"),
]
