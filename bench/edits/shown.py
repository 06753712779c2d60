"""What a document shows, for comparing two: written from docs/profile.md, and independent of the program.

Numbers, places, sections, comments, include tags and skips show nothing, nor does a call that gives nothing;
entities, `nowiki` and the texts of a group show their text; of white space between blocks nothing is shown.
Islands are what they are in the source.
"""
from __future__ import annotations

from itertools import zip_longest
from typing import List, Optional, Tuple, Union

from .documents import Part, parsed

HIDDEN_ATTRIBUTES = {"id", "about", "data-mw", "data-parsoid", "data-wt-edit"}
BLOCKS = frozenset(
    "p h1 h2 h3 h4 h5 h6 hr pre ul ol dl li dt dd table caption tbody tr td th section".split()
)
HOLDERS_OF_BLOCKS = {"body", "section", "ul", "ol", "dl", "table", "tbody", "tr"}
HOLDERS_OF_BOTH = {"li", "dt", "dd", "td", "th", "caption"}
TEXT_ALONE = {"mw:Entity", "mw:Nowiki"}
MARKS = ("mw:Comment", "mw:Skip", "mw:Includes/")
GROUP_WORDS = {"mw:Transclusion", "mw:Param"}

Shown = Union[str, tuple]


def shown(document: str) -> List[Shown]:
    """A list of texts and elements; an element is its name, its attributes and such a list."""
    return contents(parsed(document))


def first_difference(one: str, other: str) -> Optional[Tuple[Shown, Shown]]:
    """The first parts of two documents that show different things, or nothing."""
    return first_unequal(shown(one), shown(other))


def first_unequal(one: List[Shown], other: List[Shown]) -> Optional[Tuple[Shown, Shown]]:
    for left, right in zip_longest(one, other, fillvalue="(nothing)"):
        if left == right:
            continue
        if isinstance(left, str) or isinstance(right, str) or left[:2] != right[:2]:
            return left, right
        return first_unequal(left[2], right[2])
    return None


def contents(part: Part) -> List[Shown]:
    """What stands in an element."""
    parts = flat(part)
    if part.name in HOLDERS_OF_BOTH:
        parts = without_space_between(parts)
    out: List[Shown] = []
    for piece in parts:
        if piece is None:
            continue
        if isinstance(piece, str):
            if part.name in HOLDERS_OF_BLOCKS and not piece.strip(" \t\n\r"):
                continue
            if out and isinstance(out[-1], str):
                out[-1] += piece
            elif piece:
                out.append(piece)
        else:
            out.append((piece.name, attributes(piece), contents(piece)))
    return out


def flat(part: Part) -> "List[Union[str, Part, None]]":
    """Its texts and elements; sections, entities, `nowiki` and the texts of groups are opened.
    None: what shows nothing."""
    out: "List[Union[str, Part, None]]" = []
    for child in part.children:
        kind = child.attributes.get("typeof", "")
        if not child.name:
            out.append(child.text)
        elif child.name == "meta" and kind.startswith(MARKS):
            out.append(None)
        elif child.name == "section":
            out += flat(child)
        elif is_text_of_group(child):
            out += flat(child) or [None]
        elif own_kind(kind) in TEXT_ALONE:
            out.append(child.shown_text())
        else:
            out.append(child)
    return out


def is_text_of_group(part: Part) -> bool:
    """Whether it is a `span` that a group has for itself: round a text, or for a call that gives nothing."""
    return part.name == "span" and "about" in part.attributes and not attributes(part)


def own_kind(kind: str) -> str:
    """An element's own `typeof`, without the word of the group that it begins."""
    return " ".join(word for word in kind.split(" ") if word not in GROUP_WORDS)


def without_space_between(parts: "List[Union[str, Part, None]]") -> "List[Union[str, Part, None]]":
    """Of an item or a cell: without the separators among its texts."""
    joined: "List[Union[str, Part, None]]" = []
    for piece in parts:
        if isinstance(piece, str) and joined and isinstance(joined[-1], str):
            joined[-1] += piece
        else:
            joined.append(piece)
    return without_blanks_before_blocks(without_separators(joined))


def without_separators(parts: "List[Union[str, Part, None]]") -> "List[Union[str, Part, None]]":
    """From the first line break or block on, white space alone is none of the text."""
    out: "List[Union[str, Part, None]]" = []
    is_behind = False
    for piece in parts:
        if isinstance(piece, str):
            at = 0 if is_behind else piece.find("\n") % (len(piece) + 1)
            is_behind = is_behind or at < len(piece)
            out.append(piece if piece[at:].strip(" \t\n") else piece[:at])
        else:
            is_behind = is_behind or (piece is not None and piece.name in BLOCKS)
            out.append(piece)
    return out


def without_blanks_before_blocks(parts: "List[Union[str, Part, None]]") -> "List[Union[str, Part, None]]":
    out: "List[Union[str, Part, None]]" = []
    is_before_block = False
    for piece in reversed(parts):
        if isinstance(piece, str):
            piece = "" if is_before_block and not piece.strip(" \t") else piece
            is_before_block = is_before_block and not piece
        elif piece is not None:
            is_before_block = piece.name in BLOCKS
        out.append(piece)
    return out[::-1]


def attributes(part: Part) -> Tuple[Tuple[str, str], ...]:
    """Those that say what is shown; of an island also its source, of an extension what stands in it."""
    kept = {name: value for name, value in part.attributes.items() if name not in HIDDEN_ATTRIBUTES}
    if "typeof" in kept:
        kept["typeof"] = own_kind(kept["typeof"])
        if kept["typeof"].startswith(("mw:Extension", "mw:Placeholder")):
            kept["source"] = part.data().get("src", "")
        elif not kept["typeof"]:
            del kept["typeof"]
    return tuple(sorted(kept.items()))
